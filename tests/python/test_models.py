"""Models of floats have the weights of the definitions, which add up and are above 0."""

from __future__ import annotations

import math
import random
import unittest
from array import array
from collections.abc import Sequence
from fractions import Fraction
from typing import Any

import definitions as by
import definitions_of_models as models
from constriction import errors
from constriction.stream.chain import ChainCoder

from constriction.stream.model import (
    Bernoulli, Binomial, Categorical, CustomModel, Model, QuantizedCauchy, QuantizedGaussian,
    QuantizedLogistic, QuantizedMixture,
    Uniform, WeightTable,
)  # fmt: skip
from constriction.stream.queue import RangeDecoder, RangeEncoder
from constriction.stream.stack import AnsCoder
from classes_of_families import KINDS, SCALES

UNIT = 2.0**-16
MESSAGE = [-31, -12, 8, 27, 40, 33, 14, -7, -50]
MEANS = [-28.5, -15.75, 6.0, 29.25, 38.0, 35.5, 11.0, -4.5, -47.0]
STDS = [4.0, 4.0, 2.5, 2.5, 0.75, 6.0, 3.25, 3.25, 12.0]
#: The words of MESSAGE over -50 .. 50 under these means and deviations, by the definitions: of the stack coder, of
#: the range coder.
PINNED = {
    "gaussian": ([4030485604, 122806], [1268923203, 0]),
    "laplace": ([4215675605, 219727], [1249158367, 4112299828]),
    "logistic": ([2354376886, 271638], [1554933605, 4204548397]),
}


def read(model: Model) -> list[int]:
    """Returns the weights that a coder gets."""
    return list(model.table())


def tables(family: str, means: Sequence[float], stds: Sequence[float], least: int, greatest: int) -> list[list[int]]:
    return [models.table_of(family, mean, std, least, greatest) for mean, std in zip(means, stds)]


def words_of(coder: str, symbols: Any, model: Model, *given: Any) -> list[int]:
    """Returns the words of a new coder after these symbols."""
    if coder == "ans":
        stack = AnsCoder()
        stack.encode_reverse(symbols, model, *given)
        return list(stack.get_compressed())
    queue = RangeEncoder()
    queue.encode(symbols, model, *given)
    return list(queue.get_compressed())


class Weights(unittest.TestCase):
    """The tables of models."""

    def total(self, model: Model) -> list[int]:
        found = read(model)
        self.assertEqual(sum(found), 1 << 24)
        self.assertGreaterEqual(min(found), 1)
        return found

    def test_totals(self) -> None:
        """The weights of each model add up to 2^24, and each is at least 1."""
        for model in (
            Categorical([0.05, 0.6, 0.35]), Categorical([1.0]), Categorical([0, 0, 5]),
            Categorical([1e-300, 1e300]),
            Categorical(array("d", [0.5] * 1000)), Bernoulli(0.0), Bernoulli(1.0), Bernoulli(0.3), Uniform(1),
            Uniform(7),
            Uniform(1 << 16), QuantizedGaussian(-60, 60, 4.5, 31.0), QuantizedGaussian(0, 0, 1.0, 1.0),
            QuantizedGaussian(-1000, 1000, 1e9, 1e-9), QuantizedGaussian(5, 70, -3.0, 6e4),
            *(kind(-9, 9, 0.5, 2.0) for kind in KINDS.values()),
            QuantizedLogistic(-100000, 100000, 5.0, 40.0), QuantizedCauchy(-9, 9, 0.5, 2.0), Binomial(10, 0.3),
            CustomModel(lambda x: 1 / (1 + math.exp(-x)), None, -30, 30), Categorical([1e308] * 10),
            Categorical([5e-324] * 3),
        ):  # fmt: skip
            self.total(model)

    def test_values(self) -> None:
        """Some tables have expected weights."""
        self.assertEqual(self.total(Uniform(3)), [5592405, 5592405, 5592406])
        self.assertEqual(self.total(Uniform(1)), [16777216])
        self.assertEqual(Uniform(1 << 24).table(), array("I", (1,)) * (1 << 24))
        self.assertEqual(self.total(Bernoulli(0.25)), [12582912, 4194304])
        self.assertEqual(self.total(Bernoulli(0.0)), [16777215, 1])
        self.assertEqual(self.total(Bernoulli(1.0)), [1, 16777215])
        self.assertEqual(self.total(Bernoulli(1.5 * 2**-24)), [16777214, 2])
        self.assertEqual(self.total(Bernoulli(2.5 * 2**-24)), [16777214, 2])
        self.assertEqual(self.total(Categorical([1, 1])), [8388608, 8388608])
        self.assertEqual(self.total(Categorical([0, 1])), [1, 16777215])
        self.assertEqual(self.total(Categorical([1, 1, 1])), [5592406, 5592405, 5592405])

    def test_gaussian_is_near(self) -> None:
        found = self.total(QuantizedGaussian(-50, 50, 4.5, 11.25))
        for symbol in range(-49, 50):
            near = math.exp(-(((symbol - 4.5) / 11.25) ** 2) / 2) / (11.25 * math.sqrt(2 * math.pi))
            self.assertAlmostEqual(found[symbol + 50] / (1 << 24), near, delta=1e-4)

    def test_one_set_of_parameters(self) -> None:
        coder, model = AnsCoder(), QuantizedGaussian(-9, 9)
        coder.encode_reverse(-4, model, 1.5, 2.5)
        self.assertEqual(coder.decode(model, 1.5, 2.5), -4)

    def test_parameters_there_and_back(self) -> None:
        """Symbols come back under models with parameters for each symbol."""
        coder = AnsCoder()
        for model, given in (
            (QuantizedGaussian(-9, 9), ([1.5, 2.0], [0.5, 3.0])), (QuantizedGaussian(-9, 9, 2.0), ([0.5, 3.0],)),
            (QuantizedGaussian(-9, 9, std=2.0), ([0.5, 3.0],)), (Bernoulli(), ([0.1, 0.9],)), (Uniform(), ([3, 40],)),
            (Categorical(), ([[0.1, 0.9], [0.5, 0.5]],)), (Categorical(), ([[0.1, 0.9], [0.5, 0.3, 0.2]],)),
            (CustomModel(lambda x, k: 1 / (1 + math.exp(-k * x)), None, -9, 9), ([0.1, 3.0],)),
            (QuantizedCauchy(-9, 9), ([1.5, 2.0], [0.5, 3.0])), (QuantizedLogistic(-9, 9), ([1.5, 2.0], [0.5, 3.0])),
        ):  # fmt: skip
            for symbols in ([0, 1], [1, 0]):
                coder.encode_reverse(symbols, model, *given)
                self.assertEqual(coder.decode(model, *given), symbols)
                self.assertTrue(coder.is_empty())

    def test_refused(self) -> None:
        """Invalid models, parameters and numbers of parameters are refused."""
        for make in (
            lambda: Categorical([]), lambda: Categorical([0, 0]), lambda: Categorical([-1, 2]),
            lambda: Categorical([math.nan]),
            lambda: Categorical([math.inf, 1]), lambda: Bernoulli(1.5), lambda: Bernoulli(math.nan),
            lambda: Uniform(0),
            lambda: Uniform((1 << 24) + 1), lambda: QuantizedGaussian(5, 4, 0.0, 1.0),
            lambda: AnsCoder().decode(Uniform(), [2.5]),
            lambda: Categorical(array("d", [1.0]) * ((1 << 24) + 1)), *(lambda kind=kind: kind(0, 1 << 24, 0.0, 1.0) for kind in KINDS.values()),
            lambda: AnsCoder().encode_reverse([1], Bernoulli(), [0.5, 0.5]),
            lambda: AnsCoder().decode(Bernoulli(), 3),
            lambda: AnsCoder().encode_reverse([1], Categorical(), [[0.5, -0.5]]),
            lambda: AnsCoder().decode(Categorical(), [[], [1]]),
            lambda: AnsCoder().decode(CustomModel(math.cos, None, 0, 30), 1),
            lambda: AnsCoder().encode_reverse([1], CustomModel(lambda x, k: math.cos(k * x), None, 0, 3), [1.0]),
        ):  # fmt: skip
            self.assertRaises(ValueError, make)
        for make in (
            lambda: AnsCoder().encode_reverse([1], QuantizedGaussian(0, 9)), lambda: AnsCoder().decode(Bernoulli()),
            lambda: AnsCoder().encode_reverse([1], QuantizedGaussian(0, 9), [0.5]),
            lambda: AnsCoder().decode(Categorical()),
            lambda: AnsCoder().decode(QuantizedGaussian(0, 9), [0.5], [0.5], [0.5]),
            lambda: QuantizedGaussian(0.0, 9),  # type: ignore[arg-type]
            lambda: AnsCoder().decode(Uniform()), lambda: AnsCoder().decode(QuantizedGaussian(0, 9), [None], [1.0]),
        ):  # fmt: skip
            self.assertRaises(TypeError, make)
        self.assertRaises(errors.WrongWeightsError, AnsCoder().encode_reverse, 0, WeightTable([1]))


class Families(unittest.TestCase):
    """Models of the families of distributions."""

    def agrees(self, family: str, least: int, greatest: int, mean: float, std: float) -> None:
        found = read(KINDS[family](least, greatest, mean, std))
        wanted = models.table_of(family, mean, std, least, greatest)
        self.assertEqual(found, wanted, (family, least, greatest, mean, std))
        self.assertEqual(sum(found), 1 << 24)
        self.assertGreaterEqual(min(found), 1)

    def test_tables(self) -> None:
        """Random parameters have the tables of the definitions."""
        dice = random.Random(3)
        for family in KINDS:
            for least, greatest in ((-50, 50), (0, 1), (7, 7), (-1000, 200)):
                for _ in range(8):
                    mean, std = dice.uniform(least - 20, greatest + 20), math.exp(dice.uniform(-12, 6))
                    self.agrees(family, least, greatest, mean, std)

    def test_extremes(self) -> None:
        """Extreme parameters have the tables of the definitions."""
        widest = (2**32 - 1) * UNIT
        stds = [
            UNIT,
            3 * UNIT,
            (2**31 - 1) * UNIT,
            widest,
            widest + UNIT / 2,
            65536.0 - 2.0**-37,
            UNIT / 2,
            UNIT / 3,
        ]
        for family in KINDS:
            for std in [*stds, 5e-324]:
                for mean in (
                    0.0,
                    0.5,
                    -4.5,
                    4.4999,
                    10.0,
                    -1e5,
                    2.0**31,
                    2.0**46,
                    2.0**47,
                    -(2.0**60),
                    1e300,
                    -1e300,
                ):
                    self.agrees(family, -4, 5, mean, std)

    def test_scales_past_the_limit(self) -> None:
        """Scales past the limit are refused in all calls, and the error names the limit."""
        for kind, name in zip(KINDS.values(), SCALES.values()):
            for wide in (65536.0, 65536, 200000.0, 1e30, 1e308):
                text, family, mixture = (
                    f"^expected a {name} below 65536, got ",
                    kind(-9, 9),
                    QuantizedMixture(kind(-9, 9)),
                )
                for coder in (AnsCoder([5, 6]), RangeDecoder([5, 6]), ChainCoder(range(1, 9))):
                    for call in (
                        lambda: kind(-9, 9, 0.0, wide), lambda: kind(-9, 9, None, wide), lambda: coder.decode(family, 0.0, wide),
                        lambda: coder.decode(kind(-9, 9, 0.0), wide * 1.0), lambda: coder.decode(family, [0.0] * 40, [1.0] * 39 + [wide]),
                        lambda: coder.decode(mixture, [[0.5, 0.5]], [[0.0, 0.0]], [[1.0, wide]]),
                    ):  # fmt: skip
                        self.assertRaisesRegex(ValueError, text, call)
                self.assertRaisesRegex(ValueError, text, AnsCoder().encode_reverse, [0], family, [0.0], [wide])
                self.assertRaisesRegex(ValueError, text, RangeEncoder().encode, 0, family, 0.0, wide)

    def test_ranges(self) -> None:
        """Ranges at the ends of 32 bits, past them, and wide ones have the tables of the definitions."""
        for family in KINDS:
            for least in (-(1 << 31), (1 << 31) - 10, (1 << 31) - 9, -(1 << 31) - 1, 10**12, -(10**15)):
                for mean in (least + 4.25, least + 3.5, least - 1000.0, 0.0):
                    self.agrees(family, least, least + 9, mean, 1.5)
            self.agrees(family, -70000, 70000, -12345.678, 3210.5)
        self.assertEqual(QuantizedGaussian(1, 1 << 24, 0.0, 1.0).table(), array("I", (1,)) * (1 << 24))

    def test_rounding(self) -> None:
        """Each parameter is rounded once, to the nearest, ties to even."""
        for mean, units in ((0.5, 0), (1.5, 2), (2.5, 2), (-0.5, 0), (-1.5, -2), (0.75, 1), (0.5 + 2**-30, 1)):
            for std, wide in ((0.25, 1), (1.5, 2), (2.5, 2), (3.25, 3), (3.75, 4)):
                wanted = models.table(models.GAUSSIAN, units - 32768, wide, -3, 6)
                self.assertEqual(read(QuantizedGaussian(-3, 2, mean * UNIT - 0.5, std * UNIT)), wanted)

    def test_pinned_words(self) -> None:
        """A list has pinned words, from lists, tuples and arrays."""
        for family, (ans, queue) in PINNED.items():
            rows, model = tables(family, MEANS, STDS, -50, 50), KINDS[family](-50, 50)
            places = [symbol + 50 for symbol in MESSAGE]
            self.assertEqual(by.ans_words(rows, places), ans)
            self.assertEqual(by.range_words(rows, places), queue)
            for given in ((MEANS, STDS), (tuple(MEANS), tuple(STDS)), (array("d", MEANS), array("d", STDS))):
                self.assertEqual(words_of("ans", MESSAGE, model, *given), ans)
                self.assertEqual(words_of("range", array("q", MESSAGE), model, *given), queue)

    def test_words_of_random_lists(self) -> None:
        """Random lists have the words of the definitions, with all three coders."""
        dice = random.Random(5)
        for family, kind in KINDS.items():
            for least, greatest in ((-20, 20), (3, 4), (-5, -5), (0, 300)):
                means = [dice.uniform(least - 9, greatest + 9) for _ in range(60)]
                stds = [math.exp(dice.uniform(-11, 4)) for _ in means]
                symbols = [dice.randint(least, greatest) for _ in means]
                rows, places = tables(family, means, stds, least, greatest), [it - least for it in symbols]
                model = kind(least, greatest)
                self.assertEqual(words_of("ans", symbols, model, means, stds), by.ans_words(rows, places))
                self.assertEqual(words_of("range", symbols, model, means, stds), by.range_words(rows, places))
                words = [dice.randrange(1, 1 << 32) for _ in range(80)]
                chain = ChainCoder(words)
                found = chain.decode(model, means, stds)
                wanted, left, remainders = by.chain_split(rows, words)
                self.assertEqual(found, [it + least for it in wanted])
                self.assertEqual(chain.get_remainders(), (left, remainders))
                chain.encode_reverse(found, model, means, stds)
                self.assertEqual([*chain.get_data()[0], *chain.get_data()[1]], words)

    def test_there_and_back(self) -> None:
        """Long lists, which are passed in parts, come back, as do the same symbols one by one."""
        dice, count = random.Random(7), 150_000
        means = array("d", (dice.uniform(-30, 30) for _ in range(count)))
        stds = array("d", (dice.uniform(0.1, 20) for _ in range(count)))
        symbols = [max(-40, min(40, round(dice.gauss(mean, std)))) for mean, std in zip(means, stds)]
        for kind in KINDS.values():
            model, ans, encoder = kind(-40, 40), AnsCoder(), RangeEncoder()
            ans.encode_reverse(symbols, model, means, stds)
            encoder.encode(symbols, model, means, stds)
            twin, words = AnsCoder(), encoder.get_compressed()
            for start in (100_000, 50_000, 0):
                some = slice(start, start + 50_000)
                twin.encode_reverse(symbols[some], model, means[some], stds[some])
            self.assertEqual(twin.pos(), ans.pos())
            self.assertEqual(RangeDecoder(words).decode(model, means, stds), symbols)
            self.assertEqual(ans.decode(model, means[:500], stds[:500]), symbols[:500])
            self.assertEqual([ans.decode(model, means[i], stds[i]) for i in range(500, 600)], symbols[500:600])
            self.assertEqual(ans.decode(model, means[600:], stds[600:]), symbols[600:])
            self.assertTrue(ans.is_empty())
            chain = ChainCoder(array("I", (dice.randrange(1, 1 << 32) for _ in range(count))))
            before = chain.get_data()
            found = chain.decode(model, means, stds)
            chain.encode_reverse(found, model, means, stds)
            self.assertEqual(chain.get_data(), before)

    def test_own_parameters(self) -> None:
        """A model's own mean or deviation, and one for each symbol, give the same words."""
        for kind in KINDS.values():
            name = kind._names[1]
            for coder in ("ans", "range"):
                wanted = words_of(coder, MESSAGE, kind(-50, 50), [1.25] * 9, [3.5] * 9)
                self.assertEqual(words_of(coder, MESSAGE, kind(-50, 50, 1.25, 3.5)), wanted)
                self.assertEqual(words_of(coder, MESSAGE, kind(-50, 50, 1.25), [3.5] * 9), wanted)
                self.assertEqual(words_of(coder, MESSAGE, kind(-50, 50, **{name: 3.5}), [1.25] * 9), wanted)
            stack = AnsCoder(words_of("ans", MESSAGE, kind(-50, 50, 1.25, 3.5)))
            self.assertEqual(stack.decode(kind(-50, 50, 1.25), [3.5] * 4), MESSAGE[:4])
            self.assertEqual(stack.decode(kind(-50, 50, **{name: 3.5}), [1.25] * 5), MESSAGE[4:])

    def test_nothing(self) -> None:
        """Empty lists change nothing."""
        coders: list[Any] = [AnsCoder([5, 6, 7]), ChainCoder([1, 2, 3])]
        for coder in coders:
            model = QuantizedGaussian(-9, 9)
            before = coder._plain(coder._state)
            coder.encode_reverse([], model, [], [])
            self.assertEqual(coder.decode(model, [], []), [])
            self.assertEqual(coder._plain(coder._state), before)

    def test_impossible_symbols(self) -> None:
        """After an impossible symbol in any part of a list, the coder is unchanged."""
        family, count = QuantizedGaussian(-9, 9), 70_000
        for wrong in (-10, 10, 1 << 31, -(1 << 40), 1 << 62, (1 << 64) + 3, 1 << 70):
            for at in (0, count - 1):
                symbols = [0] * count
                symbols[at] = wrong
                coder, encoder = AnsCoder(), RangeEncoder()
                coder.encode_reverse([1, 2], family, [0.0] * 2, [1.0] * 2)
                before, start = coder.pos(), encoder.pos()
                with self.assertRaisesRegex(errors.ImpossibleSymbolError, r"^Impossible symbol\. "):
                    coder.encode_reverse(symbols, family, array("d", [0.0]) * count, array("d", [1.0]) * count)
                with self.assertRaises(KeyError):
                    encoder.encode(symbols, family, array("d", [0.0]) * count, array("d", [1.0]) * count)
                self.assertEqual((coder.pos(), encoder.pos()), (before, start))
                self.assertEqual(coder.decode(family, [0.0] * 2, [1.0] * 2), [1, 2])
        for model, given in ((QuantizedGaussian(5, 5), ([0.0], [1.0])), (QuantizedGaussian(5, 5, 0.0, 1.0), ())):
            self.assertRaises(errors.ImpossibleSymbolError, AnsCoder().encode_reverse, [6], model, *given)

    def test_ranges_past_32_bits(self) -> None:
        """A range and its means are moved together, even if the first symbol isn't a float."""
        near = QuantizedGaussian(0, 4, 1.0, 1.0).table()
        for first in (1 << 33, -(1 << 40), (1 << 53) + 1):
            self.assertEqual(int(float(first + 1)), first + 1)
            model = QuantizedGaussian(first, first + 4, float(first + 1), 1.0)
            self.assertEqual(model.table(), near)
            coder, symbols = AnsCoder(), [first, first + 3]
            coder.encode_reverse(symbols, QuantizedGaussian(first, first + 4), [float(first + 1)] * 2, [1.0] * 2)
            self.assertEqual(coder.decode(model, 2), symbols)

    def test_words_of_no_encoder(self) -> None:
        """Words that no encoder wrote are refused, and decoders stay unchanged."""
        family, given = QuantizedGaussian(-9, 9), ([0.0] * 100, [1.0] * 100)
        decoder, chain = RangeDecoder([(1 << 32) - 1] * 4), ChainCoder([1, 2, 3])
        before = decoder._state, chain._state
        self.assertRaises(errors.InvalidDataError, decoder.decode, family, *given)
        self.assertRaises(errors.OutOfDataError, chain.decode, family, *given)
        self.assertRaises(errors.OutOfDataError, chain.encode_reverse, [0] * 100, family, *given)
        self.assertEqual((decoder._state, chain._state), before)

    def test_refused_parameters(self) -> None:
        """Invalid means, deviations and scales are refused everywhere."""
        wrong = [(math.nan, 1.0), (math.inf, 1.0), (-math.inf, 1.0)]
        wrong += [(0.0, it) for it in (0.0, -0.0, -1.0, -5e-324, math.nan, math.inf, -math.inf)]
        for kind in KINDS.values():
            for least, greatest in ((0, 9), (4, 4), (10**12, 10**12 + 9)):
                for mean, std in wrong:
                    family = kind(least, greatest)
                    self.assertRaises(ValueError, kind, least, greatest, mean, std)
                    self.assertRaises(ValueError, AnsCoder().decode, family, [0.0, mean], [1.0, std])
                    self.assertRaises(ValueError, AnsCoder().encode_reverse, [4, 4], family, [0.0, mean], [1.0, std])
                    self.assertRaises(ValueError, RangeEncoder().encode, 4, family, mean, std)
            family = kind(0, 9)
            for call in (
                lambda: AnsCoder().encode_reverse([1], family, [0.5], [0.5, 0.5]),
                lambda: AnsCoder().decode(family, [0.5] * 3, [0.5] * 2), lambda: AnsCoder().decode(family, [], [0.5] * 2),
                lambda: AnsCoder().encode_reverse([1, 2, 3], family, [0.5] * 2, [0.5]), lambda: kind(5, 4),
                lambda: kind(0, 1 << 24),
            ):  # fmt: skip
                self.assertRaises(ValueError, call)


class Proportions(unittest.TestCase):
    """``Bernoulli``, ``Categorical``, and rows of weights."""

    def test_two_symbols(self) -> None:
        """Probabilities of two symbols have the weights of the definition."""
        dice = random.Random(13)
        chances = [
            0.0,
            -0.0,
            1.0,
            0.5,
            2.0**-24,
            2.0**-25,
            1.5 * 2**-24,
            2.5 * 2**-24,
            1 - 2.0**-24,
            1 - 2.0**-26,
        ]
        chances.append(5e-324)
        chances += [dice.random() for _ in range(50)] + [math.exp(-20 * dice.random()) for _ in range(50)]
        rows = []
        for chance in chances:
            one = min(max(round(Fraction(chance) * 2**24), 1), 2**24 - 1)
            rows.append([2**24 - one, one])
            self.assertEqual(read(Bernoulli(chance)), rows[-1])
        symbols = [dice.randrange(2) for _ in chances]
        self.assertEqual(words_of("ans", symbols, Bernoulli(), chances), by.ans_words(rows, symbols))
        self.assertEqual(words_of("range", symbols, Bernoulli(), array("d", chances)), by.range_words(rows, symbols))
        self.assertEqual(AnsCoder(by.ans_words(rows, symbols)).decode(Bernoulli(), chances), symbols)

    def test_many_rows(self) -> None:
        """Many rows are coded in parts, in the coder's order."""
        dice, count = random.Random(15), 70_000
        chances = array("d", (dice.random() for _ in range(count)))
        bits = array("q", (int(dice.random() < chance) for chance in chances))
        thirds = [dice.choice(([1, 2, 3], [5, 1], [1, 1, 1, 7])) for _ in range(500)]
        small = [dice.randrange(2) for _ in thirds]
        coder, encoder = AnsCoder(), RangeEncoder()
        coder.encode_reverse(small, Categorical(), thirds), encoder.encode(bits, Bernoulli(), chances)
        coder.encode_reverse(bits, Bernoulli(), chances), encoder.encode(small, Categorical(), thirds)
        twin = AnsCoder()
        for symbol, row in zip(small[::-1], thirds[::-1]):
            twin.encode_reverse(symbol, Categorical(row))
        for symbol, chance in list(zip(bits, chances))[::-1]:
            twin.encode_reverse(symbol, Bernoulli(), chance)
        self.assertEqual(twin.pos(), coder.pos())
        decoder = encoder.get_decoder()
        self.assertEqual(coder.decode(Bernoulli(), chances), bits)
        self.assertEqual(coder.decode(Categorical(), thirds), small)
        self.assertEqual(decoder.decode(Bernoulli(), chances), bits)
        self.assertEqual(decoder.decode(Categorical(), thirds), small)
        chain = ChainCoder(array("I", range(1, count)))
        chain.encode_reverse(chain.decode(Bernoulli(), chances), Bernoulli(), chances)
        self.assertEqual(chain.get_data()[1], array("I", range(1, count)))

    def test_rows_that_are_refused(self) -> None:
        """A list with an invalid row or symbol is refused, and coders stay unchanged."""
        coder, encoder = AnsCoder([7]), RangeEncoder()
        before = coder.pos(), encoder.pos()
        calls: list[tuple[type[Exception], Any, list[int], Any]] = [
            (errors.WrongWeightsError, WeightTable(), [0, 0], [[1 << 24], [1 << 23, 1]]),
            (errors.WrongLengthError, WeightTable(), [0], [[]]),
            (errors.ImpossibleSymbolError, WeightTable(), [0, 1], [[1 << 24], [1 << 24, 0]]),
            (errors.WrongLengthError, WeightTable(), [0, 0, 0], [[1 << 24]] * 2),
            (errors.ImpossibleSymbolError, Bernoulli(), [0, 2], [0.5, 0.5]),
            (errors.ImpossibleSymbolError, Bernoulli(), [-1], [0.5]),
            (errors.WrongLengthError, Bernoulli(), [0, 1, 1], [0.5] * 2), (ValueError, Bernoulli(), [0, 1], [0.5, math.nan]),
            (ValueError, Bernoulli(), [0], [1.0000001]), (ValueError, Bernoulli(), [0], [-5e-324]),
            (ValueError, Categorical(), [0, 0], [[1.0], [0.0]]),
            (errors.ImpossibleSymbolError, Categorical(), [0, 1], [[1.0], [1.0]]),
        ]  # fmt: skip
        for kind, model, symbols, given in calls:
            self.assertRaises(kind, coder.encode_reverse, symbols, model, given)
            self.assertRaises(kind, encoder.encode, symbols, model, given)
            self.assertEqual((coder.pos(), encoder.pos()), before)

    def test_tables(self) -> None:
        """Probabilities and counts have the weights of the definitions."""
        dice = random.Random(11)
        lists: list[list[float]] = [
            [0.05, 0.6, 0.35, 0.25], [1.0], [7], [0, 1], [0, 0, 5], [1, 1, 1], [0.1] * 7, [1e-300, 1e300],
            [5e-324, 1e-323], [1e308] * 3,
            [2.0**-62, 1.0], [1.5 * 2.0**-61, 1.0], [3, 0, 2**53 + 1, 3], [99, 1, 100, 50, 7, 3],
            [1e-9, 0.5, 0.5, 1e-9],
        ]  # fmt: skip
        lists += [
            [1.0, 1.0, 1 + 2.0**-45],
            [1.0, 1 + 2.0**-52, 1.0],
            [2.0**-9, 2.0**-9 + 2.0**-61, 1.0, 2.0**-9],
        ]
        for length in range(1, 90, 2):
            lists.append([dice.choice((0.0, dice.random(), math.exp(-30 * dice.random()))) for _ in range(length)])
        for probabilities in lists:
            if any(probabilities):
                found = read(Categorical(probabilities))
                self.assertEqual(found, models.weights_of(probabilities), probabilities)
                self.assertEqual(sum(found), 1 << 24)

    def test_proportions_alone(self) -> None:
        """Only proportions count, and the first of equal probabilities get the rest."""
        for factor in (2.0, 0.125, 2.0**-300, 3.0):
            self.assertEqual(read(Categorical([1 * factor, 5 * factor, 9 * factor])), read(Categorical([1, 5, 9])))
        found = read(Categorical([0.3] * 11))
        self.assertEqual(found, [1525202] * 5 + [1525201] * 6)

    def test_words(self) -> None:
        """Rows of probabilities have the words of the definitions."""
        rows: list[list[float]] = [[0.1, 0.7, 0.2], [0.5, 0.5], [0.0, 1.0, 0.0], [4, 3, 2, 1]]
        symbols = [1, 0, 2, 3]
        by_definition = [models.weights_of(row) for row in rows]
        wanted = by.ans_words(by_definition, symbols)
        self.assertEqual(words_of("ans", symbols, Categorical(), rows), wanted)
        self.assertEqual(words_of("range", symbols, Categorical(), rows), by.range_words(by_definition, symbols))
        self.assertEqual(AnsCoder(wanted).decode(Categorical(), rows), symbols)
        coder = AnsCoder()
        coder.encode_reverse(2, Categorical(), rows[0])
        self.assertEqual(coder.decode(Categorical(), [rows[0]]), [2])
        for wrong in (3, -1):
            self.assertRaises(errors.ImpossibleSymbolError, coder.encode_reverse, wrong, Categorical(), rows[0])


if __name__ == "__main__":
    unittest.main()
