"""Mixtures have the words of the definitions, from lists and arrays, and errors name the wrong item."""

from __future__ import annotations

import math
import random
import unittest
from typing import Any

import definitions as by
import definitions_of_models as models
from constriction import errors
from constriction.stream.chain import ChainCoder

from constriction.stream.model import QuantizedGaussian, QuantizedLogistic, QuantizedMixture, Uniform
from constriction.stream.queue import RangeDecoder, RangeEncoder
from constriction.stream.stack import AnsCoder
from classes_of_families import KINDS

LEAST, GREATEST = -50, 50
SYMBOLS = [-31, -12, 8, 27, 50, -50]
WEIGHTS = [[0.25, 0.5, 0.25], [0.0, 0.0, 1.0], [0.1, 0.2, 0.7], [2e-10, 1.0, 0.5], [0.9, 0.05, 0.05], [0.3, 0.3, 0.3]]
MEANS = [
    [-28.5, -33.25, 12.0], [6.0, 1.0, -12.5], [29.25, 8.0, 7.0], [27.5, -50.0, 60.0], [0.0, 1.0, 2.0],
    [-49.0, 49.0, 1e9],
]  # fmt: skip
SCALES = [[4.0, 2.0, 30.0], [4.0, 1e-9, 2.5], [0.75, 6.0, 3.25], [12.0, 1.0, 6e4], [1.0, 2.0, 3.0], [0.5, 0.25, 8.0]]


def tables(family: str) -> list[list[int]]:
    """Returns the weights by the definitions, with floats rounded by exact fractions."""
    return [
        models.mixture(
            family, [round(models.Fraction(it) * 2**31) for it in weights],
            [min(max(models.location_of(it), -(2**62)), 2**62) for it in means],
            [models.scale_of(it) for it in scales], LEAST, GREATEST - LEAST + 1,
        )
        for weights, means, scales in zip(WEIGHTS, MEANS, SCALES)
    ]  # fmt: skip


def mixture(family: str = models.LOGISTIC) -> QuantizedMixture:
    return QuantizedMixture(KINDS[family](LEAST, GREATEST))


class Words(unittest.TestCase):
    """Words and symbols of mixtures."""

    def test_words(self) -> None:
        """The stack coder and the range coder have the words of the definitions."""
        for family in models.FAMILIES:
            model, given, found = mixture(family), (WEIGHTS, MEANS, SCALES), tables(family)
            places = [symbol - LEAST for symbol in SYMBOLS]
            stack, queue = AnsCoder(), RangeEncoder()
            stack.encode_reverse(SYMBOLS, model, *given)
            queue.encode(SYMBOLS, model, *given)
            words = list(queue.get_compressed())
            self.assertEqual(list(stack.get_compressed()), by.ans_words(found, places))
            self.assertEqual(words, by.range_words(found, places))
            self.assertEqual(list(stack.decode(model, *given)), SYMBOLS)
            self.assertEqual(list(RangeDecoder(words).decode(model, *given)), SYMBOLS)

    def test_chain(self) -> None:
        """The chain coder decodes the symbols of the definitions, and encodes them back."""
        dice = random.Random(7)
        words = [dice.randrange(1, 1 << 32) for _ in range(len(SYMBOLS) + 4)]
        for family in models.FAMILIES:
            coder, model, given = ChainCoder(words), mixture(family), (WEIGHTS, MEANS, SCALES)
            symbols = list(coder.decode(model, *given))
            self.assertEqual([it - LEAST for it in symbols], by.chain_split(tables(family), words)[0])
            coder.encode_reverse(symbols, model, *given)
            self.assertEqual([it for part in coder.get_data() for it in part], words)

    def test_one_component_is_that_component(self) -> None:
        """A mixture of one component has the words of that component."""
        for kind in KINDS.values():
            alone, model = AnsCoder(), AnsCoder()
            means, scales = [it[0] for it in MEANS], [it[0] for it in SCALES]
            alone.encode_reverse(SYMBOLS, kind(LEAST, GREATEST), means, scales)
            model.encode_reverse(
                SYMBOLS, QuantizedMixture(kind(LEAST, GREATEST)), [[0.7]] * 6, [[it] for it in means], [[it] for it in scales],
            )  # fmt: skip
            self.assertEqual(list(alone.get_compressed()), list(model.get_compressed()))

    def test_one_symbol(self) -> None:
        coder, model = AnsCoder(), mixture()
        coder.encode_reverse(8, model, WEIGHTS[2], MEANS[2], SCALES[2])
        self.assertEqual(list(coder.get_compressed()), by.ans_words(tables(models.LOGISTIC)[2:3], [58]))
        self.assertEqual(coder.decode(model, WEIGHTS[2], MEANS[2], SCALES[2]), 8)

    def test_many(self) -> None:
        """Long lists come back."""
        dice, count, model = random.Random(3), 70000, mixture()
        given = [[[dice.random() for _ in range(2)] for _ in range(count)] for _ in range(3)]
        symbols = [dice.randint(LEAST, GREATEST) for _ in range(count)]
        coder = AnsCoder()
        coder.encode_reverse(symbols, model, *given)
        self.assertEqual(list(coder.decode(model, *given)), symbols)

    def test_none(self) -> None:
        coder, model = AnsCoder(), mixture()
        coder.encode_reverse([], model, [], [], [])
        self.assertTrue(coder.is_empty())
        self.assertEqual(list(coder.decode(model, [], [], [])), [])


class Faults(unittest.TestCase):
    """Errors of mixtures."""

    def refused(self, kind: Any, text: str, *given: Any, symbols: Any = SYMBOLS) -> None:
        """Expects the same error from encodes and from a decode."""
        for call in (AnsCoder().encode_reverse, RangeEncoder().encode):
            with self.assertRaises(kind) as found:
                call(symbols, mixture(), *given)
            self.assertEqual(str(found.exception), text)
        if symbols is SYMBOLS:
            with self.assertRaises(kind) as found:
                AnsCoder().decode(mixture(), *given)
            self.assertEqual(str(found.exception), text)

    def test_weights(self) -> None:
        """Wrong sums and negative weights are refused."""
        why = "expected weights with a sum above 0 and of at most 2"
        none, much = [list(it) for it in WEIGHTS], [list(it) for it in WEIGHTS]
        none[3], much[4] = [0.0, 0.0, 1e-12], [1.0, 0.75, 0.5]
        self.refused(errors.WrongWeightsError, f"{why}, got a sum of 1e-12 for symbol 3", none, MEANS, SCALES)
        self.refused(errors.WrongWeightsError, f"{why}, got a sum of 2.25 for symbol 4", much, MEANS, SCALES)
        much[4] = [7.0, 0.0, 0.0]
        self.refused(errors.WrongWeightsError, f"{why}, got a sum of 7.0 for symbol 4", much, MEANS, SCALES)
        none[3][1] = -0.5
        self.refused(
            ValueError,
            "expected a weight that is at least 0 and finite, got -0.5 for component 1 of symbol 3",
            none,
            MEANS,
            SCALES,
        )

    def test_parameters(self) -> None:
        """Wrong parameters are refused."""
        means, scales = [list(it) for it in MEANS], [list(it) for it in SCALES]
        means[2][1], scales[5][0] = float("inf"), 0.0
        self.refused(
            ValueError, "expected a mean that is finite, got inf for component 1 of symbol 2", WEIGHTS, means, SCALES
        )
        self.refused(
            ValueError,
            "expected a scale that is positive and finite, got 0.0 for component 0 of symbol 5",
            WEIGHTS,
            MEANS,
            scales,
        )

    def test_lengths(self) -> None:
        """Arrays of other shapes, ragged rows and rows without components are refused."""
        shapes = "expected weights and parameters of one shape (n, K), got"
        self.refused(errors.WrongLengthError, f"{shapes} (6, 3) and (5, 3) and (6, 3)", WEIGHTS, MEANS[:5], SCALES)
        narrow = [it[:2] for it in SCALES]
        self.refused(errors.WrongLengthError, f"{shapes} (6, 3) and (6, 3) and (6, 2)", WEIGHTS, MEANS, narrow)
        ragged = [*SCALES[:4], [1.0], SCALES[5]]
        self.refused(
            errors.WrongLengthError,
            "expected 3 components for each symbol, as for symbol 0, got 1 for symbol 4",
            WEIGHTS,
            MEANS,
            ragged,
        )
        empty: Any = [[]] * 6
        self.refused(
            errors.WrongWeightsError, "expected at least one component, got rows without components", empty, empty, empty,
        )  # fmt: skip
        why = "expected as many sets of parameters as symbols, got 6 sets of parameters and 2 symbols"
        self.refused(errors.WrongLengthError, why, WEIGHTS, MEANS, SCALES, symbols=[1, 2])

    def test_symbols(self) -> None:
        coder = AnsCoder()
        with self.assertRaises(errors.ImpossibleSymbolError) as found:
            coder.encode_reverse([0, 0, 51, 0, 0, 0], mixture(), WEIGHTS, MEANS, SCALES)
        self.assertEqual((found.exception.symbol, found.exception.place), (51, 2))

    def test_components(self) -> None:
        """Only a family without parameters is accepted, and mixtures compare by their families."""
        for wrong in (QuantizedLogistic(-9, 9, 0.5), QuantizedLogistic(5, 5), Uniform(4), None):
            with self.assertRaises(TypeError):
                QuantizedMixture(wrong)  # type: ignore[arg-type]
        with self.assertRaises(TypeError):
            AnsCoder().decode(mixture(), 4)
        self.assertEqual(repr(mixture()), "QuantizedMixture(QuantizedLogistic(-50, 50))")
        self.assertEqual(mixture(), mixture())
        self.assertNotEqual(mixture(), mixture(models.GAUSSIAN))


class Alone(unittest.TestCase):
    """Mixtures of one symbol."""

    def test_edges(self) -> None:
        """A call with one symbol rounds, limits and refuses components as a list of one symbol does."""
        dice = random.Random(31)
        weights = (0.5, 0.0, 1e-12, -1e-12, 2.0**-31, 1.9999999999, 2.0, math.nan, 1, -1, -0.0)
        means = (0.0, 1e15, -1e15, 2.0**46, 2.0**47, 1e300, -1e300, math.inf, math.nan, 3, 0.5 / 65536, 1.5 / 65536)
        scales = (
            1.0,
            1e-9,
            2.0**-17,
            2.0**-16,
            2.0**-18,
            65535.9999,
            65535.99999999,
            65536.0,
            -1e-12,
            0.0,
            math.nan,
            7,
        )
        model: Any = QuantizedMixture(QuantizedGaussian((1 << 40) - 9, (1 << 40) + 9)), QuantizedMixture(
            QuantizedLogistic(-9, 9)
        )
        refused = done = 0
        for _ in range(4000):
            of = dice.choice(model)
            count = dice.choice((1, 1, 2, 3))
            given = [
                [dice.choice(few if dice.random() < 0.8 else few[:1]) for _ in range(count)]
                for few in (weights, means, scales)
            ]
            symbol, results = of.first + dice.randrange(19), []
            for coder in (AnsCoder([5, 6, 7]), AnsCoder([5, 6, 7])):
                one = len(results) == 0
                try:
                    if one:
                        coder.encode_reverse(symbol, of, *given)
                    else:
                        coder.encode_reverse([symbol], of, *([it] for it in given))
                    results.append(coder.get_compressed().tolist())
                    back: Any = coder.decode(of, *given) if one else coder.decode(of, *([it] for it in given))[0]
                    self.assertEqual((back, coder), (symbol, AnsCoder([5, 6, 7])))
                    done += one
                except ValueError as it:
                    results.append(type(it))
                    self.assertEqual(coder, AnsCoder([5, 6, 7]))
                    refused += one
            self.assertEqual(results[0], results[1], given)
        self.assertGreater(min(done, refused), 300)


if __name__ == "__main__":
    unittest.main()
