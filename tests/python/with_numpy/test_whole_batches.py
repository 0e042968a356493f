"""Batches that code a symbol with each coder from arrays of numpy, which takes fewer steps than lists do."""

from __future__ import annotations

import sys
import threading
import unittest
from pathlib import Path
from typing import Any
from unittest import mock

numpy: Any
try:
    import numpy
except ImportError:
    raise unittest.SkipTest("numpy is not there") from None

sys.path.insert(0, str(Path(__file__).resolve().parents[1]))

from classes_of_families import KINDS
from constriction import errors

from constriction.stream.model import (
    Categorical, CustomModel, QuantizedGaussian, Uniform, WeightTable,
)  # fmt: skip
from constriction.stream.stack import AnsCoder, AnsCoders, SmallAnsCoder, SmallAnsCoders
from test_traced import traced
from test_whole import Interrupt, interrupted, twin_of

SIZES: tuple[tuple[Any, Any], ...] = (AnsCoders, AnsCoder), (SmallAnsCoders, SmallAnsCoder)
TYPES = ("int8", "uint8", "int16", "uint16", "int32", "uint32", "int64", ">i2", ">i4", ">i8")


def taken(coders: Any) -> mock._patch[Any]:
    """Counts the calls that take fewer steps: their results are in ``coders.results``."""
    lane = coders._lane
    original = lane._changed
    coders.results = []

    def changed(*given: Any) -> Any:
        coders.results.append(original(*given))
        return coders.results[-1]

    return mock.patch.object(lane, "_changed", changed)


class Batches(unittest.TestCase):
    """Each coder has the words of a coder that is called alone."""

    def alike(self, coders: Any, alone: list[Any]) -> None:
        self.assertEqual(
            [it.tolist() for it in coders.get_compressed()], [it.get_compressed().tolist() for it in alone]
        )

    def test_as_one_coder_each(self) -> None:
        """Random symbols of all types, from all families and tables, at both sizes."""
        dice = numpy.random.default_rng(7)
        for make, make_one in SIZES:
            for count in (1, 2, 3, 7, 64):
                coders, alone = make(count), [make_one() for _ in range(count)]
                models: list[Any] = [
                    Uniform(100), Categorical(dice.random(60)), CustomModel(lambda x: (x + 9) / 99, None, -9, 90),
                    *(kind(-50, 70, 2.5, 9.0) for kind in KINDS.values()), *(kind(-9, 100) for kind in KINDS.values()), QuantizedGaussian(-100, 27),
                ]  # fmt: skip
                for step in range(60):
                    model = models[dice.integers(len(models))]
                    given: tuple[Any, ...] = ()
                    if model.missing:
                        means = dice.normal(0, 30, count).astype(("float64", "float32", ">f8")[step % 3])
                        stds = (
                            numpy.exp(dice.normal(0, 3, count)).clip(0, 60000).astype(("float32", "float64")[step % 2])
                        )
                        given = means, (stds if step % 4 else float(stds[0]))
                    kind = numpy.dtype(TYPES[dice.integers(len(TYPES))])
                    least = max(model.first, numpy.iinfo(kind).min)
                    symbols = dice.integers(least, min(model.first + model.size, 100), count).astype(kind)
                    coders.encode_reverse(symbols, model, *given)
                    each = [numpy.broadcast_to(it, count).tolist() for it in given]
                    for j, it in enumerate(alone):
                        it.encode_reverse(int(symbols[j]), model, *(numbers[j] for numbers in each))
                    if step % 3:
                        found = coders.decode(model, *given)
                        self.assertEqual((found.dtype, found.tolist()), ("int64", symbols.tolist()))
                        for j, it in enumerate(alone):
                            it.decode(model, *(numbers[j] for numbers in each))
                    self.assertEqual(coders.num_words(), sum(it.num_words() for it in alone))
                    self.alike(coders, alone)

    def test_which_calls_take_fewer_steps(self) -> None:
        """Arrays of symbols, and of means and deviations, with and without a table, at both sizes."""
        for make, _ in SIZES:
            coders, family = make(4), QuantizedGaussian(-9, 9)
            means, stds = numpy.array([0.5, -2.0, 3.25, 0.0]), numpy.array([1.0, 2.0, 3.0, 4.0], "float32")
            for _ in range(9):
                coders.encode_reverse(numpy.array([1, 2, 3, 4]), family, means, stds)
            with taken(coders):
                for given in ((means, stds), (means, 2.0), (0.5, stds), (means[::-1], stds), ()):
                    model = family if given else Uniform(9)
                    coders.encode_reverse(numpy.array([1, 2, 3, 4], "int16"), model, *given)
                    self.assertEqual(coders.decode(model, *given).tolist(), [1, 2, 3, 4])
                self.assertEqual(len(coders.results), 10)
                self.assertFalse([it for it in coders.results if it is None or it is False])

    def test_limits(self) -> None:
        """Parameters at the limits and past them: the words are those of one coder, or all refuse them."""
        near, tiny, inf = 2.0**-17, 2.0**-149, float("inf")
        numbers = [
            0.0,
            -0.0,
            0.5,
            near,
            3 * near,
            -near,
            -3 * near,
            tiny,
            -tiny,
            32767.99999,
            32768.0,
            -32768.0,
            -32768.5,
            65535.99998,
            65535.999999,
            65536.0,
            -65536.0,
        ]
        numbers += [
            1e5,
            -1e5,
            2.0**20,
            2.0**35,
            -(2.0**36),
            2.0**37,
            1e300,
            -1e300,
            inf,
            -inf,
            float("nan"),
            5e-324,
        ]
        symbols, family = numpy.array([3, -4]), QuantizedGaussian(-9, 9)
        for make, make_one in SIZES:
            for number in numbers:
                for means, stds in (
                    ([number, 1.5], [2.0, 3.0]),
                    ([1.5, 2.0], [3.0, number]),
                    ([number, number], [number, number]),
                ):
                    coders, alone = make(2), [make_one(), make_one()]
                    coders.encode_reverse(symbols, QuantizedGaussian(-9, 9, 0.0, 5.0))
                    before, given = coders.clone(), (numpy.array(means), numpy.array(stds))
                    refused = False
                    for it, symbol, mean, std in zip(alone, symbols.tolist(), means, stds):
                        it.encode_reverse(symbol, QuantizedGaussian(-9, 9, 0.0, 5.0))
                        try:
                            it.encode_reverse(symbol, family, mean, std)
                        except ValueError:
                            refused = True
                    if refused:
                        with self.assertRaises(ValueError):
                            coders.encode_reverse(symbols, family, *given)
                        with self.assertRaises(ValueError):
                            coders.decode(family, *given)
                        self.assertEqual(coders, before)
                        continue
                    coders.encode_reverse(symbols, family, *given)
                    self.alike(coders, alone)
                    self.assertEqual(coders.decode(family, *given).tolist(), symbols.tolist())
                    self.assertEqual(coders, before)

    def test_refusals(self) -> None:
        """A refused call changes no coder, and names the symbol and the coder."""
        coders, family = AnsCoders(3), QuantizedGaussian(-9, 9)
        means, stds = numpy.array([0.5, 1.5, 2.5]), numpy.array([1.0, 2.0, 3.0])
        coders.encode_reverse(numpy.array([1, 2, 3]), family, means, stds)
        before, good = coders.clone(), numpy.array([1, 2, 3])
        for bad in (-10, 10, -(1 << 63), (1 << 63) - 1):
            for model, given in ((family, (means, stds)), (QuantizedGaussian(-9, 9, 0.5, 2.0), ())):
                with self.assertRaises(errors.ImpossibleSymbolError) as raised:
                    coders.encode_reverse(numpy.array([1, bad, 3]), model, *given)
                self.assertEqual((raised.exception.symbol, raised.exception.place, raised.exception.lane), (bad, 0, 1))
        calls: list[Any] = [
            lambda: coders.encode_reverse(good, WeightTable([5, 6])), lambda: coders.decode(WeightTable([5, 6])), lambda: coders.encode_reverse(good, family),
            lambda: coders.encode_reverse(good, family, means), lambda: coders.decode(family, means), lambda: coders.encode_reverse(good[:2], family, means, stds),
            lambda: coders.encode_reverse(good, family, means[:2], stds), lambda: coders.decode(family, 1.0, 2.0), lambda: coders.decode(3), lambda: coders.encode_reverse(good, 3),
            lambda: coders.encode_reverse(good * 1.0, family, means, stds), lambda: coders.encode_reverse(good, family, means * 1j, stds), lambda: coders.decode(family, means, stds * 1j),
            lambda: coders.encode_reverse(good, family, means, stds, stds), lambda: coders.encode_reverse(good, Uniform(9), means, stds), lambda: coders.encode_reverse(good, family, -means, -stds),
        ]  # fmt: skip
        for place, call in enumerate(calls):
            with self.assertRaises((ValueError, TypeError), msg=place):
                call()
            self.assertEqual(coders, before)
        coders.encode_reverse(good, family, means, stds)
        self.assertEqual(coders.decode(family, means, stds).tolist(), [1, 2, 3])
        self.assertEqual(coders, before)

    def test_each_event(self) -> None:
        """Calls interrupted at each of their events leave the coders as before or as after."""
        dice, family, table = numpy.random.default_rng(8), QuantizedGaussian(-9, 9), Uniform(1 << 12)
        symbols, means, stds = dice.integers(-9, 10, 5), dice.normal(0, 4, 5), dice.uniform(0.1, 5, 5)
        calls: list[Any] = [
            lambda it: it.encode_reverse(symbols, family, means, stds), lambda it: it.decode(family, means, stds), lambda it: it.encode_reverse(abs(symbols), table),
            lambda it: it.decode(table), lambda it: it.encode_reverse(numpy.array([9, -9, 9, -9, 9]), family, -99.0, numpy.full(5, 0.5)),
        ]  # fmt: skip
        stopped, kept = 0, AnsCoders.from_compressed([[1 << 20] * 9] * 5)
        for ready in (False, True):
            for change in calls:
                place = 0
                while place >= 0:
                    place += 1
                    coders = kept if ready else twin_of(kept)
                    twin, after = twin_of(coders), twin_of(coders)
                    change(after)
                    try:
                        interrupted(lambda: change(coders), place)
                        place = -1
                    except Interrupt:
                        stopped += 1
                    self.assertTrue(coders == twin or coders == after)
                    self.assertEqual(coders, twin_of(coders))
                    before = twin_of(coders)
                    coders.encode_reverse(symbols, family, means, stds)
                    self.assertEqual(coders.decode(family, means, stds).tolist(), symbols.tolist())
                    self.assertEqual(coders, before)
        self.assertGreater(stopped, 100)

    def test_each_line(self) -> None:
        """Calls that a trace function ends at each of their lines do the same."""
        family, symbols = QuantizedGaussian(-9, 9), numpy.array([1, -2, 3])
        means, stds = numpy.array([0.5, -2.0, 3.25]), numpy.array([1.0, 2.0, 3.0], "float32")
        calls: list[Any] = [
            lambda it: it.encode_reverse(symbols, family, means, stds), lambda it: it.decode(family, means, 2.0),
            lambda it: it.encode_reverse(abs(symbols), Uniform(9)), lambda it: it.decode(Uniform(9)),
        ]  # fmt: skip
        coders, stopped = AnsCoders.from_compressed([[1 << 20] * 9] * 3), 0
        for change in calls:
            place = 0
            while place >= 0:
                place += 1
                twin, after = twin_of(coders), twin_of(coders)
                change(after)
                try:
                    traced(lambda: change(coders), place)
                    place = -1
                except Interrupt:
                    stopped += 1
                told = twin_of(coders)
                self.assertTrue(told in (twin, after))
                change(coders), change(told)
                self.assertEqual(coders, told)
        self.assertGreater(stopped, 100)

    def test_calls_from_inside(self) -> None:
        """A model's function can't change the coders during their call."""
        coders, symbols, raised = AnsCoders(3), numpy.array([1, 2, 3]), []
        coders.encode_reverse(symbols, Uniform(9))

        def cdf(x: float) -> float:
            for call in (lambda: coders.encode_reverse(symbols, Uniform(9)), lambda: coders.decode(Uniform(9))):
                try:
                    call()
                except RuntimeError as it:
                    raised.append(it)
            return (x + 4) / 8

        coders.encode_reverse(symbols, CustomModel(cdf, None, -4, 4))
        self.assertGreater(len(raised), 2)
        self.assertEqual(coders.decode(CustomModel(lambda x: (x + 4) / 8, None, -4, 4)).tolist(), [1, 2, 3])
        self.assertEqual(coders.decode(Uniform(9)).tolist(), [1, 2, 3])
        self.assertTrue(coders.is_empty())

    def test_arrays_that_change(self) -> None:
        """Arrays that the caller changes after a call, and answers that the caller changes, don't change the coders."""
        coders, family = AnsCoders(3), QuantizedGaussian(-9, 9)
        symbols, means, stds = numpy.array([1, 2, 3]), numpy.array([0.5, 1.5, 2.5]), numpy.array([1.0, 2.0, 3.0])
        for _ in range(3):
            coders.encode_reverse(symbols, family, means, stds)
        answers = [coders.decode(family, means, stds) for _ in range(3)]
        for it in answers:
            self.assertEqual(it.tolist(), [1, 2, 3])
            self.assertTrue(it.flags.writeable and it.flags.owndata)
            it[:] = 7
        coders.encode_reverse(symbols, Uniform(9))
        symbols[:], before = 0, coders.clone()
        self.assertEqual(coders.decode(Uniform(9)).tolist(), [1, 2, 3])
        self.assertTrue(coders.is_empty())
        self.assertFalse(before.is_empty())

    def test_threads(self) -> None:
        """Threads share coders. Numbers that other threads ask for are those of one time."""
        coders, symbols, told, raised = AnsCoders(64), numpy.zeros(64, int), set(), []
        rare, done = WeightTable([1, (1 << 24) - 1]), threading.Event()
        words = {0}
        alone = AnsCoder()
        for _ in range(200):
            alone.encode_reverse(0, rare)
            words.add(64 * alone.num_words())

        def ask() -> None:
            while not done.is_set():
                told.add(coders.num_words())
                repr(coders)

        def work() -> None:
            try:
                for _ in range(50):
                    coders.encode_reverse(symbols, rare)
            except BaseException as it:
                raised.append(it)

        before = sys.getswitchinterval()
        sys.setswitchinterval(1e-5)
        try:
            threads = [threading.Thread(target=work) for _ in range(4)]
            other = threading.Thread(target=ask)
            for it in (other, *threads):
                it.start()
            for it in threads:
                it.join()
        finally:
            done.set()
            sys.setswitchinterval(before)
        other.join()
        self.assertEqual(raised, [])
        self.assertTrue(told <= words, told - words)
        self.assertEqual(coders[63].get_compressed().tolist(), alone.get_compressed().tolist())


if __name__ == "__main__":
    unittest.main()
