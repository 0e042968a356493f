"""One symbol per call under a numpy row of probabilities: the words, symbols and errors are those of lists."""

from __future__ import annotations

import sys
import unittest
from pathlib import Path
from typing import Any
from unittest import mock

numpy: Any
try:
    import numpy
except ImportError:
    raise unittest.SkipTest("numpy is not there") from None

sys.path.insert(0, str(Path(__file__).resolve().parents[1]))

from constriction import errors
from constriction._sizes import LARGE
from constriction.stream.model import Categorical, Model, WeightTable
from constriction.stream.stack import AnsCoder, SmallAnsCoder


class Rows(unittest.TestCase):
    """Rows of floats, one after another, in calls of the same coder."""

    def alike(self, rows: list[Any], make: Any = AnsCoder) -> None:
        """The rows have the words of lists by both rules of rounding."""
        self.alike_under(Categorical(), rows, make)
        self.alike_under(Categorical(perfect=False), rows, make)

    def alike_under(self, model: Model, rows: list[Any], make: Any) -> None:
        """The rows, one per call, have the words of the same rows as lists, and decode to the same symbols."""
        coder, other = make(), make()
        symbols = [len(row) * i // len(rows) for i, row in enumerate(rows)]
        for symbol, row in zip(symbols, rows):
            coder.encode_reverse(symbol, model, row)
            other.encode_reverse([symbol], model, [[float(it) for it in row]])
            self.assertEqual(coder, other)
        for symbol, row in zip(symbols[::-1], rows[::-1]):
            found = coder.decode(model, row)
            self.assertEqual((found, type(found)), (symbol, int))

    def test_floats(self) -> None:
        """Rows of several widths and types, with numbers that are rounded, and with tiny numbers."""
        dice, rows = numpy.random.default_rng(1), []
        for i in range(400):
            row = dice.random(dice.choice((1, 2, 3, 5, 16, 33, 256, 300, 5000)[: 9 if i % 20 == 0 else 8]))
            if i % 4 == 1:
                row = numpy.exp(dice.normal(0, 9, len(row)))
            if i % 4 == 2:
                row = numpy.where(dice.random(len(row)) < 0.3, 0.0, row * 2.0 ** dice.integers(-900, 900))
                row[-1] += 2.0**-1000
            kind = "float32" if i % 7 == 3 and i % 4 != 2 else ">f8" if i % 7 == 4 else "float64"
            rows.append(row.astype(kind)[:: 1 - 2 * (i % 5 == 2)])
        self.alike(rows)
        self.alike(
            [numpy.array([5e-324, 1e-323]), numpy.array([1e308, 1.5e308]), numpy.array([2.0**-939, 2.0**-938, 0.0])]
        )

    def test_ties(self) -> None:
        """Halves are rounded to the even number, as in lists."""
        unit = 2.0**-62
        self.alike([numpy.array([1.0, *(unit * (i + 0.5) for i in range(9)), 2.0**-10 - unit / 2]) for _ in range(2)])

    def test_words_of_16_bits(self) -> None:
        """The same for words of 16 bits."""
        dice = numpy.random.default_rng(2)
        self.alike([dice.random(dice.choice((1, 2, 9, 300, 512, 4095))) + 1e-9 for _ in range(60)], SmallAnsCoder)
        self.alike_under(Categorical(), [dice.random(4096) + 1e-9], SmallAnsCoder)
        self.assertRaises(ValueError, SmallAnsCoder().encode_reverse, 0, Categorical(), numpy.ones(4097))

    def test_refusals(self) -> None:
        """Rows without a model, and symbols without a weight, leave the coder unchanged. The next row is right."""
        good, coder, wanted = numpy.array([0.25, 0.75, 0.5]), AnsCoder([7, 9]), AnsCoder([7, 9])
        for model in (Categorical(), Categorical(perfect=False)):
            for bad in (numpy.nan, -0.5, numpy.inf, -numpy.inf, -1e-300):
                row = numpy.array([0.5, bad, 0.25])
                self.assertRaises(ValueError, coder.encode_reverse, 1, model, row)
                self.assertRaises(ValueError, coder.decode, model, row)
                coder.encode_reverse(1, model, good), wanted.encode_reverse([1], model, [good.tolist()])
                self.assertEqual(coder, wanted)
            self.assertRaises(ValueError, coder.encode_reverse, 1, model, numpy.zeros(3))
            for symbol in (3, -1, 1 << 63, 1 << 64, -(1 << 64)):
                self.assertRaises(errors.ImpossibleSymbolError, coder.encode_reverse, symbol, model, good)
            self.assertEqual(coder, wanted)

    def test_both_rules_in_turn(self) -> None:
        """Rows of one width by both rules of rounding, and rows of weights, one after another."""
        coder, wanted, row, weights = (
            AnsCoder(),
            AnsCoder(),
            numpy.array([0.25, 0.7, 0.05]),
            [1 << 23, 1 << 22, 1 << 22],
        )
        for i in range(40):
            model: Any = (Categorical(), Categorical(perfect=False), WeightTable())[i * i % 7 % 3]
            given: Any = weights if type(model) is WeightTable else row * (i + 1)
            coder.encode_reverse(i % 3, model, given), wanted.encode_reverse([i % 3], model, [list(given)])
            self.assertEqual(coder, wanted)

    def test_long_rows(self) -> None:
        """Rows that are too long for a call that holds the interpreter's lock have the same words."""
        long = [5] * 70_000
        long[7] += (1 << 24) - sum(long)
        coder, wanted = AnsCoder(), AnsCoder()
        for model, row in (
            (WeightTable(), long),
            (Categorical(), numpy.array(long) / 3),
            (Categorical(perfect=False), long),
        ):
            for _ in range(2):
                coder.encode_reverse(69_999, model, row), wanted.encode_reverse([69_999], model, [list(row)])
            self.assertEqual(coder, wanted)
            self.assertEqual([coder.decode(model, row) for _ in range(2)], [69_999] * 2)
            wanted.decode(model, [list(row)] * 2)

    def test_a_row_that_changes(self) -> None:
        """The coder keeps nothing of a row: a row that the caller changes has other words."""
        row, coder, wanted, model = numpy.array([0.5, 0.25, 0.25]), AnsCoder(), AnsCoder(), Categorical()
        for _ in range(20):
            coder.encode_reverse(1, model, row), wanted.encode_reverse([1], model, [row.tolist()])
            row += numpy.array([0.0, 0.125, 0.5])
        self.assertEqual(coder, wanted)

    def test_rows_that_another_thread_changes(self) -> None:
        """C functions get copies of rows: what another thread writes to an array during a call makes no difference."""
        for name, model in (("share_floats", Categorical()), ("count_floats", Categorical(perfect=False))):
            rows = numpy.random.default_rng(3).random((5, 7))
            coder, wanted, called = AnsCoder(), AnsCoder(), getattr(LARGE, name)
            wanted.encode_reverse([6, 1, 2, 3, 0], model, rows.tolist())

            def meanwhile(*given: Any, called: Any = called, rows: Any = rows) -> None:
                rows[:] = numpy.nan
                called(*given)

            with mock.patch.object(LARGE, name, meanwhile):
                coder.encode_reverse([6, 1, 2, 3, 0], model, rows)
            self.assertEqual(coder, wanted)

    def test_lists_of_weights(self) -> None:
        """Lists of weights of several types have the words of lists of ints, and others are refused."""
        model: Model = WeightTable()
        for row in ([numpy.int64(1 << 23), 1 << 23], [True, (1 << 24) - 1], [numpy.uint32(1 << 23)] * 2):
            coder, wanted = AnsCoder(), AnsCoder()
            coder.encode_reverse(1, model, row), wanted.encode_reverse([1], model, [list(map(int, row))])
            self.assertEqual(coder, wanted)
        for bad, kind in (
            ([1.0, 2.0], TypeError),
            ([-1, 1 << 24], errors.WrongWeightsError),
            ([1 << 40], errors.WrongWeightsError),
        ):
            self.assertRaises(kind, AnsCoder().encode_reverse, 0, model, bad)


if __name__ == "__main__":
    unittest.main()
