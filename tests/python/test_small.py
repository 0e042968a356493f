"""Coders with words of 16 bits, whose weights add up to 2^12, compared with the definitions at this size."""

from __future__ import annotations

import copy
import math
import pickle
import random
import unittest
from array import array
from typing import Any

import definitions as by
import definitions_of_models as models
from constriction import errors
from constriction.stream.chain import ChainCoder, SmallChainCoder

from constriction.stream.model import (
    Bernoulli, Binomial, Categorical, CustomModel, Model, QuantizedCauchy, QuantizedGaussian, QuantizedLogistic, QuantizedMixture,
    Uniform, WeightTable,
)  # fmt: skip
from constriction.stream.queue import RangeDecoder, RangeEncoder, SmallRangeDecoder, SmallRangeEncoder
from constriction.stream.stack import AnsCoder, SmallAnsCoder
from classes_of_families import KINDS

TOTAL = 1 << 12
#: A model with its parameters, and the weights of its symbols by the definitions.
Case = tuple[Model, tuple[Any, ...], list[int]]


def units(mean: float, deviation: float) -> tuple[int, int]:
    return models.location_of(mean), models.scale_of(deviation)


def table(family: str, mean: float, deviation: float) -> list[int]:
    return models.table(family, *units(mean, deviation), -9, 19, 12)


def some_case(dice: random.Random) -> Case:
    """Returns a random model, with parameters of one symbol."""
    mean, std = dice.uniform(-15, 15), math.exp(dice.uniform(-12, 11))
    weights, size, p = (
        by.random_weights(dice, dice.choice((1, 2, 16, 70))),
        dice.choice((1, 2, 7, 300, TOTAL)),
        dice.random(),
    )
    counts = [dice.choice((0, 1, 5, dice.randrange(1 << 40))) for _ in range(dice.choice((1, 2, 9, 300)))] + [3]
    family, kind = dice.choice([*KINDS.items()])
    shares = [dice.uniform(0.1, 0.3) for _ in range(3)]
    means, stds = [dice.uniform(-15, 15) for _ in shares], [dice.uniform(0.1, 9) for _ in shares]
    places = [units(*it) for it in zip(means, stds)]
    mixed = models.mixture(family, [round(it * 2**31) for it in shares], *map(list, zip(*places)), -9, 19, 12)  # type: ignore[arg-type]
    one = min(max(round(p * TOTAL), 1), TOTAL - 1)
    shared = models.weights(counts_of(counts), 12)
    uniform = [TOTAL // size] * (size - 1) + [TOTAL - TOTAL // size * (size - 1)]
    return dice.choice([  # type: ignore[no-any-return]
        (WeightTable(weights), (), weights), (WeightTable(), (weights,), weights), (Uniform(size), (), uniform), (Uniform(), (size,), uniform),
        (Categorical(counts), (), shared), (Categorical(), (counts,), shared), (Bernoulli(p), (), [TOTAL - one, one]),
        (Bernoulli(), (p,), [TOTAL - one, one]), (kind(-9, 9, mean, std), (), table(family, mean, std)),
        (kind(-9, 9), (mean, std), table(family, mean, std)), (kind(-9, 9, mean), (std,), table(family, mean, std)),
        (QuantizedMixture(kind(-9, 9)), (shares, means, stds), mixed),
    ])  # fmt: skip


def counts_of(counts: list[int]) -> list[int]:
    """Returns whole numbers as the model takes them: a count of 0 gets the least share."""
    up = 62 - max(counts).bit_length()
    return [it << up or 1 for it in counts]


def rows_of(case: Case) -> tuple[Any, ...]:
    """Returns the parameters of a list of one symbol."""
    return tuple([it] for it in case[1])


class Small(unittest.TestCase):
    """Coders with words of 16 bits."""

    def setUp(self) -> None:
        by.at_size(16, 12)
        self.addCleanup(by.at_size, 32, 24)

    def drawn(self, seed: int, count: int) -> tuple[list[Case], list[list[int]], list[int], list[int]]:
        """Returns models, their weights, the indices of symbols, and the symbols."""
        dice = random.Random(seed)
        cases = [some_case(dice) for _ in range(count)]
        places = [by.random_symbol(dice, it[2]) for it in cases]
        return cases, [it[2] for it in cases], places, [case[0].first + it for case, it in zip(cases, places)]

    def test_stack_coder(self) -> None:
        """The stack coder has the words of the definition."""
        for seed in range(8):
            cases, tables, places, symbols = self.drawn(seed, 60)
            one, other = SmallAnsCoder(), SmallAnsCoder()
            for case, symbol in list(zip(cases, symbols))[::-1]:
                one.encode_reverse(symbol, case[0], *case[1])
                other.encode_reverse([symbol], case[0], *rows_of(case))
            words = by.ans_words(tables, places)
            self.assertEqual((one.get_compressed().tolist(), one.pos()), (words, other.pos()))
            self.assertEqual(SmallAnsCoder(words), one)
            self.assertEqual([int(one.decode(case[0], *case[1])) for case in cases], symbols)
            self.assertEqual([int(other.decode(case[0], *(rows_of(case) or (1,)))[0]) for case in cases], symbols)
            self.assertTrue(one.is_empty() and other.is_empty())
            some = [random.Random(seed).randrange(1, 1 << 16) for _ in range(50)]
            found, left = by.ans_decode(tables, some)
            coder = SmallAnsCoder(some)
            self.assertEqual([int(coder.decode(case[0], *case[1])) - case[0].first for case in cases], found)
            self.assertEqual(coder.get_compressed().tolist(), left)

    def test_range_coder(self) -> None:
        """The range coder has the words of the definition."""
        for seed in range(20, 28):
            cases, tables, places, symbols = self.drawn(seed, 60)
            one, other, positions = SmallRangeEncoder(), SmallRangeEncoder(), []
            for case, symbol in zip(cases, symbols):
                positions.append(one.pos())
                one.encode(symbol, case[0], *case[1])
                other.encode([symbol], case[0], *rows_of(case))
            words = by.range_words(tables, places)
            self.assertEqual((one.get_compressed().tolist(), one.pos()), (words, other.pos()))
            self.assertEqual(one.num_bits(), 16 * len(words))
            decoder, listed = one.get_decoder(), SmallRangeDecoder(words)
            self.assertIs(type(decoder), SmallRangeDecoder)
            self.assertEqual([int(decoder.decode(case[0], *case[1])) for case in cases], symbols)
            self.assertEqual([int(listed.decode(case[0], *(rows_of(case) or (1,)))[0]) for case in cases], symbols)
            self.assertEqual((decoder, decoder.maybe_exhausted()), (listed, True))
            for place in (50, 3):
                decoder.seek(*positions[place])
                self.assertEqual(int(decoder.decode(cases[place][0], *cases[place][1])), symbols[place])

    def test_chain_coder(self) -> None:
        """The chain coder has the symbols and words of the definition."""
        for seed in range(40, 48):
            cases, tables, _, _ = self.drawn(seed, 40)
            words = [random.Random(seed).randrange(1, 1 << 16) for _ in range(60)]
            one, other = SmallChainCoder(words), SmallChainCoder(words)
            found, left, remainders = by.chain_split(tables, words)
            symbols = [int(one.decode(case[0], *case[1])) for case in cases]
            self.assertEqual([int(other.decode(case[0], *(rows_of(case) or (1,)))[0]) for case in cases], symbols)
            self.assertEqual([it - case[0].first for it, case in zip(symbols, cases)], found)
            self.assertEqual([it.tolist() for it in one.get_remainders()], [left, remainders])
            self.assertEqual(one, other)
            for case, symbol in list(zip(cases, symbols))[::-1]:
                one.encode_reverse(symbol, case[0], *case[1])
                other.encode_reverse([symbol], case[0], *rows_of(case))
            self.assertEqual(one, other)
            self.assertEqual([*one.get_data()[0], *one.get_data()[1]], words)

    def test_lists(self) -> None:
        """Long lists in each type of symbols, and lists of parameters."""
        dice, weights = random.Random(60), [1000, 96, 0, 3000]
        symbols = dice.choices((0, 1, 3), k=70_000)
        words, model = by.ans_words([weights] * 3000, symbols[:3000]), WeightTable(weights)
        family, means = QuantizedLogistic(-9, 9), [dice.uniform(-9, 9) for _ in range(200)]
        stds, near = [dice.uniform(0.5, 9) for _ in means], [round(it) for it in means]
        tables = [table(models.LOGISTIC, *it) for it in zip(means, stds)]
        for make in (list, lambda it: array("q", it), lambda it: array("B", it), lambda it: array("H", it)):
            coder, encoder, chain = SmallAnsCoder(), SmallRangeEncoder(), SmallChainCoder([7] * 60_000)
            coder.encode_reverse(make(symbols), model), encoder.encode(make(symbols), model)
            self.assertEqual(coder.decode(model, 70_000).tolist(), symbols)
            self.assertEqual(encoder.get_decoder().decode(model, 70_000).tolist(), symbols)
            coder.encode_reverse(make(symbols[:3000]), model)
            self.assertEqual(coder.get_compressed().tolist(), words)
            before = chain.get_data()[1].tolist()
            chain.encode_reverse(make(chain.decode(model, 70_000).tolist()), model)
            self.assertEqual(chain.get_data()[1].tolist(), before)
        coder, encoder = SmallAnsCoder(), SmallRangeEncoder()
        coder.encode_reverse(near, family, means, stds), encoder.encode(near, family, means, stds)
        self.assertEqual(coder.get_compressed().tolist(), by.ans_words(tables, [it + 9 for it in near]))
        self.assertEqual(encoder.get_compressed().tolist(), by.range_words(tables, [it + 9 for it in near]))
        self.assertEqual(coder.decode(family, means, stds).tolist(), near)

    def test_models_in_floats(self) -> None:
        """Symbols of models in floats come back, and other calls leave a model unchanged."""
        for model in (
            QuantizedCauchy(-9, 9, 0.0, 2.0), Binomial(9, 0.25), CustomModel(lambda x: 1 / (1 + math.exp(-x)), None, -4, 4), Uniform(5),
        ):  # fmt: skip
            symbols = [model.first + i % model.size for i in range(40)]
            large, small = AnsCoder(), SmallAnsCoder()
            for _ in range(3):
                large.encode_reverse(symbols, model), small.encode_reverse(symbols, model)
            self.assertEqual(sum(model.table()), 1 << 24)
            for _ in range(3):
                self.assertEqual([int(small.decode(model)) for _ in symbols], symbols)
                self.assertEqual(large.decode(model, 40).tolist(), symbols)
            self.assertEqual(small.is_empty(), True)
        spread = CustomModel(lambda x, k: min(max((x - k) / 40 + 0.5, 0), 1), None, -9, 9)
        coder = SmallAnsCoder()
        coder.encode_reverse([1, -9, 9], spread, [0.0, 3.0, -3.0])
        self.assertEqual(coder.decode(spread, [0.0, 3.0, -3.0]).tolist(), [1, -9, 9])

    def test_refusals(self) -> None:
        """Each error names the fault, and nothing changes."""
        coder, encoder, chain = SmallAnsCoder([5, 6, 7]), SmallRangeEncoder(), SmallChainCoder([5, 6, 7])
        before = [pickle.dumps(it) for it in (coder, encoder, chain)]
        encodes: list[Any] = [coder.encode_reverse, encoder.encode, chain.encode_reverse]
        for encode in encodes:
            for symbols in ([0, 1], 1):
                with self.assertRaisesRegex(errors.WrongWeightsError, "sum of 4096, got a sum of 16777216"):
                    encode(symbols, WeightTable([1 << 23, 1 << 23]))
                with self.assertRaisesRegex(ValueError, r"1 to 2\^12 symbols, got 5001"):
                    encode(symbols, QuantizedGaussian(0, 5000, 1.0, 2.0))
                with self.assertRaisesRegex(ValueError, r"1 to 2\^12 symbols, got 5001"):
                    encode(symbols, Categorical([1] * 5001))
                with self.assertRaisesRegex(ValueError, r"1 to 2\^12 symbols, got 5001"):
                    encode(symbols, Uniform(5001))
            with self.assertRaisesRegex(errors.WrongWeightsError, r"below 2\^16, got 70000"):
                encode([0], WeightTable(), [[70000, 1]])
            for kind in KINDS.values():
                with self.assertRaisesRegex(ValueError, r"1 to 2\^12 symbols, got 5001"):
                    encode([0], QuantizedMixture(kind(0, 5000)), [[1.0]], [[0.0]], [[1.0]])
            with self.assertRaises(errors.ImpossibleSymbolError):
                encode([1, 5], Uniform(5))
            with self.assertRaisesRegex(errors.WrongWeightsError, "sum of 16777216, got a sum of 4096"):
                AnsCoder().encode_reverse([1], WeightTable([1, 4095]))
        self.assertRaisesRegex(errors.InvalidDataError, r"below 2\^16, got 65536", SmallAnsCoder, [1, 65536])
        self.assertRaisesRegex(
            errors.InvalidDataError, r"2 bytes for each word, got 3", SmallAnsCoder.from_bytes, b"abc"
        )
        self.assertRaises(errors.WrongLengthError, coder.seek, 0, 1 << 32)
        self.assertEqual([pickle.dumps(it) for it in (coder, encoder, chain)], before)

    def test_copies_bytes_and_kinds(self) -> None:
        """Copies and bytes keep the size of words, and sizes don't mix."""
        coder, encoder, model = SmallAnsCoder(), SmallRangeEncoder(), Categorical([3, 1, 4, 1, 5])
        coder.encode_reverse([0, 4, 2, 2, 1] * 9, model), encoder.encode([0, 4, 2, 2, 1] * 9, model)
        words = coder.get_compressed().tolist()
        self.assertEqual(coder.to_bytes(), b"".join(it.to_bytes(2, "little") for it in words))
        self.assertEqual(SmallAnsCoder.from_bytes(coder.to_bytes()), coder)
        self.assertEqual(type(SmallAnsCoder.from_bytes(coder.to_bytes())), SmallAnsCoder)
        self.assertEqual(SmallRangeDecoder.from_bytes(encoder.to_bytes()), encoder.get_decoder())
        for it in (coder, encoder, encoder.get_decoder(), SmallChainCoder([5, 6, 7])):
            for twin in (it.clone(), copy.deepcopy(it), pickle.loads(pickle.dumps(it))):
                self.assertEqual((twin, type(twin), repr(twin)), (it, type(it), repr(it)))
        self.assertNotEqual(SmallAnsCoder(), AnsCoder())
        self.assertEqual((coder.num_bits(), coder.num_valid_bits() <= coder.num_bits()), (16 * len(words), True))
        self.assertEqual(pickle.loads(pickle.dumps(model)), model)
        self.assertEqual(Categorical([3, 1, 4, 1, 5]), model)
        sealed = SmallAnsCoder([5, 0], seal=True)
        self.assertEqual(
            (sealed.get_binary().tolist(), SmallChainCoder([1, 2, 0], seal=True).get_data(unseal=True)[1].tolist()),
            ([5, 0], [1, 2, 0]),
        )
        for kind in (SmallAnsCoder, SmallRangeDecoder, SmallRangeEncoder, SmallChainCoder):
            self.assertTrue(issubclass(kind, (AnsCoder, RangeDecoder, RangeEncoder, ChainCoder)))

    def test_positions(self) -> None:
        """Seeks return to recorded positions."""
        coder, positions = SmallAnsCoder(), []
        for symbol in range(300):
            positions.append(coder.pos())
            coder.encode_reverse(symbol, Uniform(300))
        end = coder.pos()
        for symbol in (7, 250, 31):
            coder.seek(*positions[symbol + 1])
            self.assertEqual(coder.decode(Uniform(300)), symbol)
        coder.seek(*end)
        self.assertEqual(coder.decode(Uniform(300), 300).tolist(), list(range(300))[::-1])


if __name__ == "__main__":
    unittest.main()
