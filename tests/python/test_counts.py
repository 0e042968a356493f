"""``Categorical(perfect=False)``: counts by one rounding, weights by the rule of docs/MODELS.md, and each fault with its row."""

from __future__ import annotations

import copy
import math
import pickle
import random
import unittest
from array import array
from typing import Any

import definitions as by
import definitions_of_models as models
from constriction import errors
from constriction._sizes import SMALL
from constriction.stream.chain import ChainCoder, SmallChainCoder
from constriction.stream.model import Categorical, WeightTable
from constriction.stream.queue import RangeDecoder, RangeEncoder, SmallRangeDecoder, SmallRangeEncoder
from constriction.stream.stack import AnsCoder, SmallAnsCoder

QUICK = Categorical(perfect=False)


def random_row(dice: random.Random, width: int) -> list[float]:
    """Probabilities of all sizes, of which one at least is above 0."""
    row = [0.0 if dice.random() < 0.2 else dice.random() * 2.0 ** dice.randrange(-60, 60) for _ in range(width)]
    row[dice.randrange(width)] = dice.random() + 0.5
    return row


class Tables(unittest.TestCase):
    """Tables of counts."""

    def same(self, numbers: Any) -> None:
        self.assertEqual(list(Categorical(numbers, perfect=False).table()), models.quick_weights(numbers))

    def test_floats(self) -> None:
        dice = random.Random(1)
        for width in (1, 2, 3, 31, 32, 33, 300):
            self.same(random_row(dice, width))
            self.same(array("d", random_row(dice, width)))
            self.same([dice.random() for _ in range(width)])

    def test_halves_and_ends(self) -> None:
        for numbers in (
            [1.0, 2.0**-31, 3 * 2.0**-32, 2.0**-32], [1.0 - 2.0**-53, 0.5], [5e-324, 1e-323], [1.7e308, 1.0, 1e300],
            [2.0**31 + 0.5, 1.5, 2.5], [1.0, 0.0, 0.0], [0.0, 1e-300],
        ):  # fmt: skip
            self.same(numbers)

    def test_sums_of_2_to_40(self) -> None:
        for width, share in ((511, 1.0), (512, 1.0), (513, 1.0), (1024, 0.75), (3000, 1 / 3), (5000, 0.9999)):
            self.same([share] * width)
            self.same([share] + [share * 2.0**-9] * width)
        self.assertEqual(sum(models.quick_counts([1.0] * 512)), 2**39)

    def test_whole_numbers(self) -> None:
        """Whole numbers are counts."""
        for numbers in (
            [1, 2, 1], [0, 5, 0], [2**32 - 1] * 256, [2**32 - 1] * 257, [2**32, 1, 2**31], [2**70, 3 * 2**40, 2**39, 1], range(5),
            [2**32 - 1, *[0] * 40],
        ):  # fmt: skip
            self.same(numbers)
        self.same(array("I", [3, 1, 0, 4]))
        self.assertEqual(Categorical([3, 1, 0, 4], perfect=False), Categorical([0.75, 0.25, 0.0, 1.0], perfect=False))

    def test_which_rule(self) -> None:
        """`perfect` chooses between the two rules."""
        quick, perfect = Categorical([1, 1, 1], perfect=False), Categorical([1, 1, 1])
        self.assertEqual(list(quick.table()), [5592405, 5592405, 5592406])
        self.assertEqual(list(perfect.table()), [5592406, 5592405, 5592405])
        self.assertEqual(Categorical([1, 1, 1], perfect=True, lazy=True), perfect)
        self.assertEqual(Categorical([1, 1, 1], perfect=False, lazy=False), quick)
        self.assertNotEqual(quick, perfect)
        self.assertNotEqual(QUICK, Categorical())
        self.assertEqual(
            (repr(QUICK), repr(quick)),
            ("Categorical(perfect=False)", f"Categorical({quick.table().tolist()}, perfect=False)"),
        )
        for it in (QUICK, quick):
            self.assertEqual(it, copy.deepcopy(it))
            self.assertEqual(it, pickle.loads(pickle.dumps(it)))


class Words(unittest.TestCase):
    """Words under rows of counts."""

    def test_rows(self) -> None:
        """Rows have the words of the definition."""
        dice = random.Random(2)
        for width in (1, 2, 7, 40):
            rows = [random_row(dice, width) for _ in range(9)]
            symbols = [dice.randrange(width) for _ in rows]
            tables = [models.quick_weights(row) for row in rows]
            stack, queue, alone = AnsCoder(), RangeEncoder(), AnsCoder()
            stack.encode_reverse(symbols, QUICK, rows)
            queue.encode(symbols, QUICK, rows)
            for symbol, row in zip(reversed(symbols), reversed(rows)):
                alone.encode_reverse(symbol, QUICK, row)
            words, found = list(stack.get_compressed()), list(queue.get_compressed())
            self.assertEqual(words, by.ans_words(tables, symbols))
            self.assertEqual(words, list(alone.get_compressed()))
            self.assertEqual(found, by.range_words(tables, symbols))
            self.assertEqual(list(stack.decode(QUICK, rows)), symbols)
            self.assertEqual([alone.decode(QUICK, row) for row in rows], symbols)
            self.assertEqual(list(RangeDecoder(found).decode(QUICK, rows)), symbols)
            decoder = RangeDecoder(found)
            self.assertEqual([decoder.decode(QUICK, row) for row in rows], symbols)
            self.chain(rows, tables)

    def chain(self, rows: list[list[float]], tables: list[list[int]]) -> None:
        """Decodes and encodes back with a chain coder."""
        words = [5 + 7919 * i for i in range(len(rows) + 4)]
        symbols, _, _ = by.chain_split(tables, words)
        coder, alone = ChainCoder(words), ChainCoder(words)
        self.assertEqual(list(coder.decode(QUICK, rows)), symbols)
        self.assertEqual([alone.decode(QUICK, row) for row in rows], symbols)
        self.assertEqual(coder, alone)
        coder.encode_reverse(symbols, QUICK, rows)
        self.assertEqual(coder, ChainCoder(words))

    def test_words_of_16_bits(self) -> None:
        """Rows of counts have the words of the definition at 16 bits."""
        dice = random.Random(3)
        for width in (1, 5, 40):
            rows = [random_row(dice, width) for _ in range(9)]
            symbols = [dice.randrange(width) for _ in rows]
            weights = [models.quick_weights(row, 12) for row in rows]
            self.assertEqual(list(Categorical(rows[0], perfect=False).at(SMALL).table()), weights[0])
            coder, other, queue = SmallAnsCoder(), SmallAnsCoder(), SmallRangeEncoder()
            coder.encode_reverse(symbols, QUICK, rows)
            other.encode_reverse(symbols, WeightTable(), weights)
            self.assertEqual(coder, other)
            self.assertEqual(list(coder.decode(QUICK, rows)), symbols)
            self.assertEqual([other.decode(QUICK, row) for row in rows], symbols)
            queue.encode(symbols, QUICK, rows)
            self.assertEqual(list(SmallRangeDecoder(queue.get_compressed()).decode(QUICK, rows)), symbols)
            words = [i + 1 for i in range(len(rows) + 4)]
            chain = SmallChainCoder(words)
            chain.encode_reverse(chain.decode(QUICK, rows), QUICK, rows)
            self.assertEqual(chain, SmallChainCoder(words))
        for count in (4095, 4096):
            coder = SmallAnsCoder([1, 2, 3])
            if count < 4096:
                coder.encode_reverse([count - 1], QUICK, [[1] * count])
                self.assertEqual(list(coder.decode(QUICK, [[1] * count])), [count - 1])
            else:
                with self.assertRaisesRegex(
                    ValueError, r"^expected a model of 1 to 2\^12 - 1 symbols, got 4096 in row 0$"
                ):
                    coder.encode_reverse([0], QUICK, [[1] * count])

    def test_widths_and_own_table(self) -> None:
        """Rows may have different widths, and a model may have its own counts."""
        rows, symbols = [[0.5, 0.5], [0.25, 0.25, 0.5], [1.0]], [1, 2, 0]
        coder, other = AnsCoder(), AnsCoder()
        coder.encode_reverse(symbols, QUICK, rows)
        for symbol, row in zip(reversed(symbols), reversed(rows)):
            other.encode_reverse([symbol], Categorical(row, perfect=False))
        self.assertEqual(coder, other)
        self.assertEqual(list(coder.decode(QUICK, rows)), symbols)


class Faults(unittest.TestCase):
    """Errors of rows of counts."""

    def refused(self, kind: type[Exception], text: str, symbols: list[int], rows: list[Any]) -> None:
        """Expects an error that changes nothing."""
        coder = AnsCoder([5, 6, 7])
        before = coder.clone()
        with self.assertRaisesRegex(kind, text):
            coder.encode_reverse(symbols, QUICK, rows)
        self.assertEqual(coder, before)
        if kind is ValueError:
            with self.assertRaisesRegex(kind, text):
                coder.decode(QUICK, rows)
            self.assertEqual(coder, before)

    def test_rows(self) -> None:
        """Rows with wrong counts are refused."""
        good = [0.5, 0.5]
        for wrong, text in (
            ([0.5, math.nan], "^expected a probability that is at least 0 and finite, got nan at place 1 in row 2$"),
            ([-0.5, 1.0], "^expected a probability that is at least 0 and finite, got -0.5 at place 0 in row 2$"),
            ([0.5, math.inf], "^expected a probability that is at least 0 and finite, got inf at place 1 in row 2$"),
            ([0.0, 0.0], "^expected a probability above 0, got none in row 2$"),
            ([0, 0], "^expected a probability above 0, got none in row 2$"),
            ([3, -1], "^expected a probability that is at least 0, got -1 at place 1 in row 2$"),
            ([], "^expected a probability above 0, got none in row 2$"),
        ):
            self.refused(ValueError, text, [0, 1, 0, 1], [good, good, wrong, good])
            with self.assertRaisesRegex(ValueError, text.replace(" in row 2", "")):
                Categorical(wrong, perfect=False)
            with self.assertRaisesRegex(ValueError, text.replace(" in row 2", "").replace("none$", "none")):
                AnsCoder().encode_reverse(0, QUICK, wrong)

    def test_symbols(self) -> None:
        """Impossible symbols are refused."""
        rows = [[1.0, 0.0], [0.5, 0.5]]
        self.refused(
            errors.ImpossibleSymbolError, "^Impossible symbol. Expected 0 .. 1, got 2 at place 1.$", [1, 2], rows
        )
        self.refused(errors.WrongLengthError, "2 rows of probabilities and 3 symbols$", [0, 1, 0], rows)
        with self.assertRaises(errors.ImpossibleSymbolError):
            AnsCoder().encode_reverse(2, QUICK, rows[0])
        with self.assertRaises(TypeError):
            AnsCoder().decode(QUICK, 0.5)


if __name__ == "__main__":
    unittest.main()
