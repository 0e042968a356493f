"""``Categorical(perfect=False)`` with numpy: rows of an array have the same words as lists, whatever their type."""

from __future__ import annotations

import math
import sys
import unittest
from pathlib import Path
from typing import Any

numpy: Any
try:
    import numpy
except ImportError:
    raise unittest.SkipTest("numpy is not there") from None

sys.path.insert(0, str(Path(__file__).resolve().parents[1]))

import definitions_of_models as models
from constriction.stream.model import Categorical, WeightTable
from constriction.stream.queue import RangeDecoder, RangeEncoder
from constriction.stream.stack import AnsCoder

QUICK = Categorical(perfect=False)


class Arrays(unittest.TestCase):
    """Rows of counts in arrays."""

    def coded(self, table: Any) -> None:
        """The table's rows have the weights of the definition, in one call, in a call for each, and as fixed models."""
        dice = numpy.random.default_rng(len(table))
        symbols = dice.integers(0, table.shape[1], len(table))
        weights = [models.quick_weights(row.tolist()) for row in table]
        coder, other, queue = AnsCoder(), AnsCoder(), RangeEncoder()
        coder.encode_reverse(symbols, QUICK, table)
        other.encode_reverse(symbols, WeightTable(), numpy.array(weights))
        self.assertEqual(coder, other)
        queue.encode(symbols, QUICK, table)
        self.assertEqual(RangeDecoder(queue.get_compressed()).decode(QUICK, table).tolist(), symbols.tolist())
        self.assertEqual(coder.decode(QUICK, table).tolist(), symbols.tolist())
        self.assertEqual([other.decode(QUICK, row) for row in table], symbols.tolist())
        self.assertEqual([Categorical(row, perfect=False).table().tolist() for row in table], weights)

    def test_floats(self) -> None:
        """Arrays of floats have the words of lists."""
        dice = numpy.random.default_rng(1)
        for width in (1, 2, 33, 300):
            for kind in ("float32", "float64", "float16"):
                table = dice.random((9, width)) ** 3
                table[dice.random(table.shape) < 0.2] = 0
                table[:, dice.integers(0, width)] = 0.5
                self.coded(table.astype(kind))
        self.coded((dice.random((5, 40)) * 2.0 ** dice.integers(-100, 100, (5, 1))).astype("float32"))
        self.coded(dice.random((5, 40)) * 2.0 ** dice.integers(-1000, 1000, (5, 1)))
        self.coded(numpy.array([[5e-324, 1e-323], [1.0, 2.0]]))
        self.coded(numpy.array([[1e-45, 3e-45], [1.0, 2.0]], dtype="float32"))

    def test_sums_of_2_to_40(self) -> None:
        """Rows whose counts have the greatest sum have the words of lists."""
        dice = numpy.random.default_rng(2)
        for width in (511, 512, 513, 2000):
            table = numpy.ones((3, width))
            table[1] = dice.random(width)
            table[2, 1:] = 2.0**-9
            for kind in ("float32", "float64"):
                self.coded(table.astype(kind))

    def test_whole_numbers(self) -> None:
        """Arrays of whole numbers have the words of lists."""
        dice = numpy.random.default_rng(3)
        for kind in ("uint8", "int32", "uint32", "int64", "uint64", "bool"):
            table = dice.integers(0, 2, (5, 30)).astype(kind)
            table[:, 3] = 1
            self.coded(table)
        self.coded(dice.integers(1, 2**32, (3, 256)))
        self.coded(dice.integers(2**31, 2**32, (3, 600)))
        self.coded(dice.integers(0, 2**63, (3, 20)))

    def test_other_layouts(self) -> None:
        """Arrays in other orders of memory and bytes have the words of lists."""
        table = numpy.random.default_rng(4).random((20, 6))
        for it in (
            table[::2],
            table[:, ::-1],
            numpy.asfortranarray(table),
            table.astype(">f8"),
            table.astype("float32")[::-3],
        ):
            self.coded(it)

    def test_many_rows(self) -> None:
        """More rows than one call of a C function gets."""
        dice = numpy.random.default_rng(5)
        table, symbols = dice.random((3000, 50), dtype="float32"), dice.integers(0, 50, 3000)
        coder, parts = AnsCoder(), AnsCoder()
        coder.encode_reverse(symbols, QUICK, table)
        for start in (2000, 1000, 0):
            parts.encode_reverse(symbols[start : start + 1000], QUICK, table[start : start + 1000])
        self.assertEqual(coder, parts)
        self.assertEqual(coder.decode(QUICK, table).tolist(), symbols.tolist())

    def test_faults(self) -> None:
        """Errors name the row and the index of a wrong count, and nothing changes."""
        for wrong, text in (
            ([0.5, math.nan], "got nan at place 1 in row 1500"), ([-0.5, 1], "got -0.5 at place 0 in row 1500"),
            ([math.inf, 1], "got inf at place 0 in row 1500"), ([0, 0], "above 0, got none in row 1500"),
        ):  # fmt: skip
            for kind in ("float32", "float64"):
                table = numpy.full((3000, 60), 0.5, dtype=kind)
                table[1500, :2], table[1500, 2:] = wrong, 0
                coder = AnsCoder([1, 2, 3])
                before = coder.clone()
                with self.assertRaisesRegex(ValueError, text):
                    coder.encode_reverse(numpy.zeros(3000, dtype=int), QUICK, table)
                with self.assertRaisesRegex(ValueError, text):
                    coder.decode(QUICK, table)
                self.assertEqual(coder, before)
        table = numpy.ones((9, 3), dtype=int)
        table[4, 1] = -2
        with self.assertRaisesRegex(ValueError, "got -2 at place 1 in row 4"):
            AnsCoder().encode_reverse([0] * 9, QUICK, table)


if __name__ == "__main__":
    unittest.main()
