"""Calls with one symbol have the words, symbols and errors of calls with lists, with each model and coder."""

from __future__ import annotations

import copy
import math
import pickle
import random
import signal
import unittest
from array import array
from typing import Any
from unittest import mock

import definitions as by
import definitions_of_models as models
from constriction import _single, errors
from constriction.stream.chain import ChainCoder

from constriction.stream.model import (
    Bernoulli, Categorical, CustomModel, Model, QuantizedCauchy, QuantizedGaussian, Uniform, WeightTable,
)  # fmt: skip
from constriction.stream.queue import RangeEncoder
from constriction.stream.stack import AnsCoder
from classes_of_families import KINDS

Step = tuple[int, Model, tuple[Any, ...]]
KEPT: list[Model] = [
    WeightTable([3, 0, 16777213]), Uniform(7), Categorical([0.5, 0.0, 0.25]), QuantizedGaussian(-9, 9, 0.5, 3.0), Bernoulli(0.0625),
    QuantizedCauchy(-3, 3, 0.0, 1.0), CustomModel(lambda x: 1 / (1 + math.exp(-x)), None, -4, 4), QuantizedGaussian(1 << 40, (1 << 40) + 6, 2.0**40, 2.0),
    Uniform(1), QuantizedGaussian(5, 5, 5.0, 1.0), Uniform(300),
]  # fmt: skip


def some_steps(dice: random.Random, count: int) -> list[Step]:
    """Returns symbols with repeated models, new models, and parameters."""
    steps: list[Step] = []
    for _ in range(count):
        mean, std = dice.uniform(-15, 15), math.exp(dice.uniform(-12, 11))
        weights = by.random_weights(dice, dice.choice((1, 2, 16, 70)))
        kind: Any = dice.choice([*KINDS.values()])
        model, given = dice.choice((
            (dice.choice(KEPT), ()), (kind(-9, 9), (mean, std)), (kind(-9, 9, mean), (std,)), (kind(-9, 9, mean, std), ()),
            (WeightTable(weights), ()), (WeightTable(), (weights,)), (Bernoulli(), (dice.random(),)), (QuantizedCauchy(-9, 9), (mean, std)),
            (kind(-9, 9, -1e9, 1e-9), ()),
        ))  # fmt: skip
        row = (
            list(model.table())
            if not given
            else weights
            if isinstance(model, WeightTable)
            else [1] * (2 if isinstance(model, Bernoulli) else 19)
        )
        steps.append((model.first + by.random_symbol(dice, row), model, given))
    return steps


def by_lists(given: tuple[Any, ...]) -> tuple[Any, ...]:
    return tuple([it] for it in given)


class Single(unittest.TestCase):
    """Calls with one symbol."""

    def test_the_same_as_by_lists(self) -> None:
        """Calls with one symbol have the words and symbols of calls with lists of one symbol."""
        dice = random.Random(21)
        for _ in range(30):
            steps = some_steps(dice, 60)
            one, other, queue, listed = AnsCoder(), AnsCoder(), RangeEncoder(), RangeEncoder()
            for symbol, model, given in steps:
                one.encode_reverse(symbol, model, *given)
                other.encode_reverse([symbol], model, *by_lists(given))
                queue.encode(symbol, model, *given)
                listed.encode([symbol], model, *by_lists(given))
                self.assertEqual((one.pos(), queue.pos()), (other.pos(), listed.pos()))
            self.assertEqual(one.get_compressed(), other.get_compressed())
            self.assertEqual(queue.get_compressed(), listed.get_compressed())
            decoder = queue.get_decoder()
            for symbol, model, given in steps:
                rows = by_lists(given) if isinstance(model, WeightTable) else given
                found = decoder.decode(model, *rows)
                self.assertEqual(found if type(found) is int else found[0], symbol)
            for symbol, model, given in steps[::-1]:
                rows = by_lists(given) if isinstance(model, WeightTable) else given
                found = one.decode(model, *rows)
                self.assertEqual(found if type(found) is int else found[0], symbol)
            self.assertTrue(one.is_empty())

    def test_of_the_chain_coder(self) -> None:
        """The same holds for the chain coder."""
        dice = random.Random(22)
        words = [dice.randrange(1, 1 << 32) for _ in range(100)]
        one, other = ChainCoder(words), ChainCoder(words)
        steps, found = some_steps(dice, 70), []
        for _, model, given in steps:
            rows = by_lists(given) if isinstance(model, WeightTable) else given
            symbol, (wanted,) = one.decode(model, *rows), other.decode(model, *(by_lists(given) or (1,)))
            symbol = symbol if type(symbol) is int else int(symbol[0])
            self.assertEqual(symbol, wanted)
            self.assertEqual(one._plain(one._state), other._plain(other._state))
            found.append(symbol)
        for symbol, (_, model, given) in list(zip(found, steps))[::-1]:
            one.encode_reverse(symbol, model, *given)
            other.encode_reverse([symbol], model, *by_lists(given))
            self.assertEqual(one._plain(one._state), other._plain(other._state))
        self.assertEqual(one.get_data()[1], words)

    def test_beside_the_definition(self) -> None:
        """Words of single calls, by the definitions in whole numbers."""
        dice, family, count = random.Random(23), QuantizedGaussian(-20, 20), 200
        means, stds = [dice.uniform(-15, 15) for _ in range(count)], [
            math.exp(dice.uniform(-3, 3)) for _ in range(count)
        ]
        rows = [models.table_of(models.GAUSSIAN, mean, std, -20, 20) for mean, std in zip(means, stds)]
        symbols = [dice.randint(-20, 20) for _ in range(count)]
        coder, encoder = AnsCoder(), RangeEncoder()
        for symbol, mean, std in zip(symbols, means, stds):
            encoder.encode(symbol, family, mean, std)
        for symbol, mean, std in list(zip(symbols, means, stds))[::-1]:
            coder.encode_reverse(symbol, family, mean, std)
        places = [it + 20 for it in symbols]
        self.assertEqual(coder.get_compressed(), by.ans_words(rows, places))
        self.assertEqual(encoder.get_compressed(), by.range_words(rows, places))
        decoder = encoder.get_decoder()
        self.assertEqual([decoder.decode(family, mean, std) for mean, std in zip(means, stds)], symbols)
        self.assertEqual([coder.decode(family, mean, std) for mean, std in zip(means, stds)], symbols)

    def test_it_is_the_quick_way(self) -> None:
        """Plain calls of one symbol never use the code for lists."""
        table, family = WeightTable([3, 2, 16777211]), QuantizedGaussian(-9, 9)
        slow = mock.patch("constriction._coder.Coder._changed", side_effect=AssertionError("the way of lists"))
        coder, encoder, chain = AnsCoder(), RangeEncoder(), ChainCoder(array("I", range(1, 50)))
        decoder = encoder.get_decoder()
        with slow:
            for model, given, symbol in (
                (table, (), 1),
                (family, (0.5, 2.0), 3),
                (family, (1, 2), 3),
                *((kind(-9, 9, 0.5, 2.0), (), 4) for kind in KINDS.values()),
                (Bernoulli(), (0.5,), 1),
            ):
                for _ in range(5):
                    coder.encode_reverse(symbol, model, *given), encoder.encode(symbol, model, *given)
                    self.assertEqual(coder.decode(model, *given), symbol)
                    chain.encode_reverse(chain.decode(model, *given), model, *given)
                    decoder.decode(model, *given)

    def test_lists_of_one_parameter(self) -> None:
        """A single symbol takes a list of one of each parameter, under each model, and no other list."""
        spread: Any = CustomModel(lambda x, k: min(max((x - k) / 40 + 0.5, 0), 1), None, -9, 9)
        tables = WeightTable([[1, (1 << 24) - 1], [1 << 23, 1 << 23]])
        cases: list[tuple[Any, tuple[Any, ...]]] = [
            (QuantizedGaussian(-9, 9), (0.5, 2.0)), (QuantizedGaussian(3, 3), (0.5, 2.0)), (QuantizedCauchy(-9, 9), (0.5, 2.0)), (Bernoulli(), (0.25,)),
            (spread, (0.5,)), (tables, (1,)),
        ]  # fmt: skip

        def encode(coder: Any, *call: Any) -> None:
            (coder.encode if isinstance(coder, RangeEncoder) else coder.encode_reverse)(*call)

        for make in (AnsCoder, RangeEncoder):
            for model, given in cases:
                alone: Any = make()
                symbol = model.first
                encode(alone, symbol, model, *given)
                for form in (
                    lambda it: [it],
                    lambda it: (it,),
                    lambda it: array("q" if model is tables else "d", [it]),
                ):
                    coder: Any = make()
                    encode(coder, symbol, model, *map(form, given))
                    self.assertEqual(coder, alone)
                for wrong in ([], given * 2, [*given] * 3):
                    with self.assertRaisesRegex(
                        errors.WrongLengthError, f"^expected one of each parameter .*, got {len(wrong)}$"
                    ):
                        encode(coder, symbol, model, *[wrong] * len(given))
                    self.assertEqual(coder, alone)
                with self.assertRaises(TypeError):
                    encode(coder, symbol, model, *["0.5"] * len(given))

    def test_refusals(self) -> None:
        """An error of one symbol is that of a list, and the coder stays unchanged."""
        family, table = QuantizedGaussian(-9, 9), WeightTable([16777216, 0])
        calls: list[tuple[type[Exception], tuple[Any, ...]]] = [
            (errors.ImpossibleSymbolError, (10, family, 0.0, 1.0)), (errors.ImpossibleSymbolError, (-(1 << 70), family, 0.0, 1.0)),
            (errors.ImpossibleSymbolError, (1, table)), (errors.ImpossibleSymbolError, (-1, table)), (errors.ImpossibleSymbolError, (1 << 64, table)),
            (errors.WrongWeightsError, (0, WeightTable([5]))), (errors.WrongWeightsError, (0, WeightTable(), [5])), (errors.WrongLengthError, (0, WeightTable(), [])),
            (ValueError, (0, family, math.nan, 1.0)), (ValueError, (0, family, 0.0, 0.0)), (ValueError, (0, family, 0.0, math.inf)),
            (TypeError, (0, family, 0.0)), (TypeError, (0, family)), (TypeError, (0, table, 5)), (TypeError, (1.0, table)), (TypeError, (0, family, "1", 1.0)),
            (ValueError, (0, Bernoulli(), 1.5)), (errors.ImpossibleSymbolError, (2, Bernoulli(), 0.5)),
        ]  # fmt: skip
        for kind, arguments in calls:
            for _ in range(4):  # Also where the model is used often.
                coder, encoder = AnsCoder([5, 6]), RangeEncoder()
                before = coder.pos(), encoder.pos()
                self.assertRaises(kind, coder.encode_reverse, *arguments)
                self.assertRaises(kind, encoder.encode, *arguments)
                self.assertEqual((coder.pos(), encoder.pos()), before)
        chain, halves = ChainCoder([1, 2]), Uniform(2)
        for _ in range(5):
            before = chain._plain(chain._state)
            try:
                chain.decode(halves)
            except errors.OutOfDataError:
                self.assertEqual(chain._plain(chain._state), before)
        self.assertRaises(errors.OutOfDataError, chain.decode, halves)
        reader = RangeEncoder().get_decoder().__class__([(1 << 32) - 1] * 2)
        for _ in range(5):
            self.assertRaises(errors.InvalidDataError, reader.decode, table)

    def test_copies(self) -> None:
        """Neither a coder's copies nor its pickles share the memory of its calls."""
        coder, model = AnsCoder(), QuantizedGaussian(-9, 9, 0.0, 3.0)
        for symbol in (4, -3, 2, 1, 0, 5):
            coder.encode_reverse(symbol, model)
        twins = [copy.copy(coder), copy.deepcopy(coder), pickle.loads(pickle.dumps(coder)), coder.clone()]
        for twin in twins:
            self.assertEqual([twin.decode(model) for _ in range(3)], [5, 0, 1])
        self.assertEqual([coder.decode(model) for _ in range(6)], [5, 0, 1, 2, -3, 4])
        self.assertEqual(pickle.loads(pickle.dumps(model)).table(), model.table())
        self.assertFalse({"_often", "_uses"} & set(pickle.loads(pickle.dumps(model)).__dict__))

    def test_memory_that_grows(self) -> None:
        coder, model = AnsCoder(), Uniform(1 << 16)
        for symbol in range(5000):
            coder.encode_reverse(symbol, model)
        self.assertEqual([coder.decode(model) for _ in range(5000)], list(range(5000))[::-1])

    @unittest.skipUnless(hasattr(signal, "setitimer"), "the system has no timer for a process")
    def test_interrupts(self) -> None:
        """A call that a signal interrupts succeeds or changes nothing, and the coder goes on."""

        class Interrupt(Exception):
            pass

        def raise_it(*_: Any) -> None:
            nonlocal armed
            if armed:
                armed = False
                raise Interrupt

        armed, dice, coder = False, random.Random(24), AnsCoder(array("I", range(1, 9)))
        uniform, family, before = Uniform(500), QuantizedGaussian(-500, 500), signal.getsignal(signal.SIGALRM)
        signal.signal(signal.SIGALRM, raise_it)
        try:
            for _ in range(400):
                steps: list[Step] = []
                start = coder.pos()
                try:
                    armed = True
                    signal.setitimer(signal.ITIMER_REAL, dice.uniform(1e-5, 3e-4), 1e-3)
                    while True:
                        symbol = dice.randrange(500)
                        steps.append(dice.choice(((symbol, uniform, ()), (symbol, family, (symbol + 0.25, 3.0)))))
                        coder.encode_reverse(steps[-1][0], steps[-1][1], *steps[-1][2])
                except Interrupt:
                    signal.setitimer(signal.ITIMER_REAL, 0)
                twin = coder.clone()
                for symbol, model, given in reversed(steps if self.is_done(coder, steps, start) else steps[:-1]):
                    self.assertEqual((coder.decode(model, *given), twin.decode(model, *given)), (symbol, symbol))
                self.assertEqual((coder.pos(), twin.pos()), (start, start))
        finally:
            signal.setitimer(signal.ITIMER_REAL, 0)
            signal.signal(signal.SIGALRM, before)

    def is_done(self, coder: AnsCoder, steps: list[Step], start: tuple[int, int]) -> bool:
        """Returns whether the last symbol is on the stack.

        All symbols have to come back, and the words below them stay.
        """
        twin = coder.clone()
        return all(twin.decode(*it[1:2], *it[2]) == it[0] for it in reversed(steps)) and twin.pos() == start

    def test_its_own_call(self) -> None:
        """A number that calls the coder is converted before the coder works."""
        coder = AnsCoder(array("I", range(1, 100)))

        class Nosy:
            def __index__(self) -> int:
                coder.decode(Uniform(4))
                return 3

        coder.encode_reverse(Nosy(), Uniform(4))  # type: ignore[arg-type]
        self.assertEqual(coder.decode(Uniform(4)), 3)
        self.assertTrue(isinstance(coder._lane, _single.Lane))


if __name__ == "__main__":
    unittest.main()
