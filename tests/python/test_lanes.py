"""Many stack coders in one call have the words, symbols and errors of coders that are called one by one."""

from __future__ import annotations

import copy
import pickle
import random
import threading
import unittest
from array import array
from typing import Any
from unittest import mock

from classes_of_families import KINDS
from constriction import errors

from constriction.stream.model import (
    Bernoulli, Categorical, CustomModel, Model, QuantizedGaussian, QuantizedMixture, Uniform, WeightTable,
)  # fmt: skip
from constriction.stream.stack import AnsCoder, AnsCoders, SmallAnsCoder, SmallAnsCoders

HEIGHTS = QuantizedGaussian(-20, 20, 1.5, 4.0)
SIZES: list[tuple[Any, Any]] = [(AnsCoders, AnsCoder), (SmallAnsCoders, SmallAnsCoder)]


def listed(answer: Any) -> list[Any]:
    """Returns symbols as a flat list."""
    numbers = answer.tolist()
    return [it for row in numbers for it in row] if numbers and isinstance(numbers[0], list) else numbers


def some_models(dice: random.Random, count: int) -> list[tuple[Model, tuple[list[Any], ...], int]]:
    """Returns models with their parameters for so many symbols, and the number of symbols of each."""
    means, stds = [dice.uniform(-15, 15) for _ in range(count)], [dice.uniform(0.1, 9) for _ in range(count)]
    rows = [[dice.random() + 0.01 for _ in range(5)] for _ in range(count)]
    return [
        (WeightTable([3, 5, 16777208]), (), 3),
        (Categorical([0.5, 0.125, 0.25]), (), 3),
        (Uniform(7), (), 7),
        (HEIGHTS, (), 41),
        *((kind(-20, 20), (means, stds), 41) for kind in KINDS.values()),
        (Categorical(), (rows,), 5),
        (Bernoulli(), ([dice.random() for _ in range(count)],), 2),
    ]


def row(numbers: list[Any], j: int, time: int) -> list[Any]:
    return numbers[j * time : (j + 1) * time]


class Lanes(unittest.TestCase):
    """Batches of coders beside one coder for each row."""

    def test_words_of_one_time(self) -> None:
        """The words of all coders are from one time, even if other threads encode meanwhile."""
        for coders, coder in SIZES:
            batch, alone, export = coders(4), coder(), coder.get_compressed
            batch.encode_reverse([1] * 4, Uniform(9))
            alone.encode_reverse(1, Uniform(9))
            wanted = alone.get_compressed().tolist()

            def exported(one: Any, *given: Any) -> Any:
                """Lets another thread encode before the words of each coder."""
                thread = threading.Thread(target=batch.encode_reverse, args=([2] * 4, Uniform(9)))
                thread.start()
                thread.join()
                return export(one, *given)

            with mock.patch.object(coder, "get_compressed", exported):
                self.assertEqual([it.tolist() for it in batch.get_compressed()], [wanted] * 4)
            self.assertEqual(batch.decode(Uniform(9)).tolist(), [2] * 4)

    def test_as_one_coder_each(self) -> None:
        """Each model, each number of coders from 0 to 9 and 64, and rows of 0 to 5 symbols."""
        dice = random.Random(7)
        for coders, coder in SIZES:
            for count in [*range(10), 64]:
                batch, alone = coders(count), [coder() for _ in range(count)]
                steps = []
                time = dice.randrange(1, 6)
                for model, given, symbols in some_models(dice, count * time):
                    if coder is SmallAnsCoder and isinstance(model, WeightTable):
                        continue
                    first = model.first
                    numbers = [first + dice.randrange(symbols) for _ in range(count * time)]
                    if not given:
                        batch.encode_reverse([row(numbers, j, time) for j in range(count)], model)
                        for j, it in enumerate(alone):
                            it.encode_reverse(row(numbers, j, time), model)
                    else:
                        by_rows = [[row(it, j, time) for j in range(count)] for it in given]
                        if not count:
                            by_rows = [[] for _ in given]
                        batch.encode_reverse([row(numbers, j, time) for j in range(count)], model, *by_rows)
                        for j, it in enumerate(alone):
                            it.encode_reverse(
                                row(numbers, j, time), model, *(row(list(them), j, time) for them in given)
                            )
                    steps.append((model, given, numbers, time))
                self.assertEqual(
                    [list(it) for it in batch.get_compressed()], [list(it.get_compressed()) for it in alone]
                )
                self.assertEqual(batch.num_words(), sum(it.num_words() for it in alone))
                for model, given, numbers, time in reversed(steps):
                    if not given:
                        found = batch.decode(model, amt=time)
                    elif not count:
                        found = batch.decode(model, *([] for _ in given))
                    else:
                        found = batch.decode(model, *([row(it, j, time) for j in range(count)] for it in given))
                    self.assertEqual(listed(found), numbers, (coders, count, model))
                self.assertTrue(batch.is_empty())

    def test_one_symbol_each(self) -> None:
        """Symbols of shape (n,)."""
        batch = AnsCoders(5)
        batch.encode_reverse([3, -1, 0, 20, -20], HEIGHTS)
        batch.encode_reverse(array("q", [1, 2, 3, 4, 5]), HEIGHTS)
        self.assertEqual(batch.decode(HEIGHTS).tolist(), [1, 2, 3, 4, 5])
        self.assertEqual(batch.decode(HEIGHTS).tolist(), [3, -1, 0, 20, -20])
        model, means = QuantizedGaussian(-9, 9), [0.5, 1.5, -3.0, 8.0, 2.0]
        batch.encode_reverse([0, 1, -3, 7, 2], model, means, 2.5)
        self.assertEqual(batch.decode(model, means, [2.5] * 5).tolist(), [0, 1, -3, 7, 2])
        spread: Any = CustomModel(lambda x, k: min(max((x - k) / 40 + 0.5, 0), 1), None, -9, 9)
        batch.encode_reverse([0, 1, -3, 7, 2], spread, means)
        self.assertEqual(batch.decode(spread, means).tolist(), [0, 1, -3, 7, 2])

    def test_as_values(self) -> None:
        """Items, equality, copies, pickles, and words from other coders."""
        batch = AnsCoders(3)
        batch.encode_reverse([[5, 6, 7], [0, 1, 2], [-3, -2, -1]], HEIGHTS)
        self.assertEqual((len(batch), [type(it) for it in batch]), (3, [AnsCoder] * 3))
        one = batch[-1]
        self.assertEqual(one.decode(HEIGHTS, 3).tolist(), [-3, -2, -1])
        self.assertEqual(batch[2].decode(HEIGHTS), -3)
        with self.assertRaises(IndexError):
            batch[3]
        again = AnsCoders.from_compressed(batch.get_compressed())
        self.assertEqual(again, batch)
        for it in (batch.clone(), copy.copy(batch), copy.deepcopy(batch), pickle.loads(pickle.dumps(batch))):
            self.assertEqual(it, batch)
            it.decode(HEIGHTS)
            self.assertNotEqual(it, batch)
        self.assertNotEqual(AnsCoders(2), AnsCoders(3))
        self.assertNotEqual(batch, SmallAnsCoders(3))
        batch.clear()
        self.assertEqual(batch, AnsCoders(3))
        with self.assertRaises(errors.InvalidDataError):
            AnsCoders.from_compressed([[1], [2, 0]])

    def test_refusals(self) -> None:
        """A refusal names the symbol, its place in the row and the coder, and changes no coder."""
        batch = AnsCoders(3)
        batch.encode_reverse([[5, 6], [0, 1], [-3, -2]], HEIGHTS)
        before = batch.clone()
        with self.assertRaises(errors.ImpossibleSymbolError) as raised:
            batch.encode_reverse([[5, 6], [0, 21], [-3, -2]], HEIGHTS)
        self.assertEqual((raised.exception.symbol, raised.exception.place, raised.exception.lane), (21, 1, 1))
        self.assertIn("got 21 at place 1 of coder 1.", str(raised.exception))
        self.assertEqual(batch, before)
        for symbols in ([1, 2], [[1, 2], [3, 4]], [[1], [2, 3], [4]], 7, []):
            with self.assertRaises((errors.WrongLengthError, TypeError)):
                batch.encode_reverse(symbols, HEIGHTS)
            self.assertEqual(batch, before)
        with self.assertRaises(errors.WrongWeightsError):
            batch.encode_reverse([0, 1, 0], WeightTable([1, 2, 3]))
        with self.assertRaises(TypeError):
            batch.encode_reverse(HEIGHTS, [0, 1, 0])  # type: ignore[arg-type]
        with self.assertRaises(errors.WrongLengthError):
            batch.decode(QuantizedGaussian(-9, 9), [1.0, 2.0], [1.0, 2.0])
        with self.assertRaises(TypeError):
            batch.decode(QuantizedGaussian(-9, 9), [1.0, 2.0, 3.0], [1.0, 2.0, 3.0], amt=2)
        self.assertEqual(batch, before)

    def test_numbers_of_parameters(self) -> None:
        """Lists of parameters that don't fit the symbols are refused, and a list for one row is for each row."""
        family, batch = QuantizedGaussian(-9, 9), AnsCoders(3)
        batch.encode_reverse([1, 2, 3], family, [0.5] * 3, [2.0] * 3)
        before, mixture = batch.clone(), QuantizedMixture(family)
        symbols: tuple[Any, ...] = ([1, 2, 3], [[1, 2, 3, 4, 5]] * 3)
        for numbers in symbols:
            for length in (0, 2, 4, 16):
                given, rows = [0.5] * length, [[0.5]] * length
                calls: list[Any] = [
                    lambda: batch.encode_reverse(numbers, family, given, given), lambda: batch.encode_reverse(numbers, mixture, rows, rows, rows),
                    lambda: batch.decode(family, numbers, given), lambda: batch.decode(mixture, rows, rows, rows),
                ]  # fmt: skip
                for call in calls:
                    with self.assertRaises(errors.WrongLengthError):
                        call()
                    self.assertEqual(batch, before)
        for rows in ([0.5, -1.0], array("d", [0.5, -1.0]), memoryview(array("d", [0.5, -1.0]))):
            batch.encode_reverse([[1, 2], [3, 4], [5, 6]], family, rows, 2.0)
            each = [[0.5, -1.0]] * 3
            self.assertEqual(listed(batch.clone().decode(family, each, [[2.0, 2.0]] * 3)), [1, 2, 3, 4, 5, 6])
            self.assertEqual(listed(batch.decode(family, each, [2.0, 2.0])), [1, 2, 3, 4, 5, 6])
            self.assertEqual(batch, before)

    def test_what_is_no_row(self) -> None:
        """Rows that are sets, dicts, texts or bytes are refused: sets have no order."""
        batch, family = AnsCoders(2), QuantizedGaussian(-9, 9)
        wrong: list[Any] = [
            {(1, 2), (3, 4)}, {(1, 2): 5, (3, 4): 6}, [{1, 2}, {3, 4}], [{1: 5, 2: 6}, {3: 7, 4: 8}], ["12", "34"], [b"12", b"34"], [[1, 2], b"34"],
            [[1], 2],
        ]  # fmt: skip
        for rows in wrong:
            for call in (
                lambda: batch.encode_reverse(rows, Uniform(99)),
                lambda: batch.encode_reverse([[1, 2], [3, 4]], family, rows, 2.0),
                lambda: batch.decode(family, 0.5, rows),
            ):
                with self.assertRaises(TypeError, msg=rows):
                    call()
                self.assertTrue(batch.is_empty())
        for words in ({(1, 2), (3, 4)}, {(1, 2): 5, (3, 4): 6}):
            with self.assertRaisesRegex(TypeError, "^expected a list of lists of words, got "):
                AnsCoders.from_compressed(words)

    def test_lists_that_change(self) -> None:
        """A list of symbols that a number's own method shortens or extends during the call is refused."""
        family = QuantizedGaussian(-9, 9)
        for change in (list.clear, list.pop, lambda it: it.append(0)):
            batch, symbols = AnsCoders(3), [1, 2, 3]

            class Number:
                def __float__(self) -> float:
                    change(symbols)
                    return 0.5

                def __index__(self) -> int:
                    return int(float(self) + 0.5)

            calls: list[Any] = [
                lambda: batch.encode_reverse(symbols, family, [0.5, 0.5, Number()], 2.0),
                lambda: batch.encode_reverse(symbols, WeightTable(), [[1 << 23] * 2, [1 << 23] * 2, [1 << 23, Number()]]),
            ]  # fmt: skip
            for call in calls:
                symbols[:] = 1, 0, 1
                with self.assertRaises((errors.WrongLengthError, errors.WrongWeightsError)):
                    call()
                self.assertTrue(batch.is_empty())

    def test_views(self) -> None:
        """Buffers of two dimensions, and of formats that Python doesn't know."""
        batch, family = AnsCoders(2), QuantizedGaussian(-9, 9)
        symbols = memoryview(array("q", [1, -2, 3, 4]).tobytes()).cast("B").cast("q", (2, 2))
        means = memoryview(array("d", [0.5, -1.5, 2.5, 3.5]).tobytes()).cast("B").cast("d", (2, 2))
        batch.encode_reverse(symbols, family, means, 2.0)
        self.assertEqual(listed(batch.clone().decode(family, means, [[2.0] * 2] * 2)), [1, -2, 3, 4])
        self.assertEqual(listed(batch.decode(family, means, 2.0)), [1, -2, 3, 4])
        for odd in (
            memoryview(bytes(2)).cast("c"),
            memoryview(array("d", [0.5] * 6).tobytes()).cast("B").cast("d", (2, 1, 3)),
        ):
            before = batch.clone()
            for model, given in (
                (family, (odd, odd)),
                (Uniform(3), ()),
                (Categorical(), (odd,)),
                (WeightTable(), (odd,)),
            ):
                with self.assertRaises((TypeError, errors.WrongLengthError)):
                    batch.encode_reverse(odd, model, *given)
                if given and odd.ndim == 1:
                    with self.assertRaises(TypeError):
                        batch.decode(model, *given)
            self.assertEqual(batch, before)


if __name__ == "__main__":
    unittest.main()
