"""Models of several tables, with the index of a table for each symbol: the words of the same rows one by one, and each fault."""

from __future__ import annotations

import copy
import pickle
import random
import unittest
from array import array
from typing import Any

import definitions as by
from constriction import errors
from constriction._sizes import SMALL
from constriction.stream.chain import ChainCoder, SmallChainCoder
from constriction.stream.model import Categorical, WeightTable
from constriction.stream.queue import RangeDecoder, RangeEncoder, SmallRangeDecoder, SmallRangeEncoder
from constriction.stream.stack import AnsCoder, AnsCoders, SmallAnsCoder

TWO = WeightTable([[3, 2, 16777211], [8388608, 0, 8388608]])
HALVES = WeightTable([[1024, 2048, 1024], [4095, 1, 0]])


def random_tables(dice: random.Random, count: int, width: int, total: int = 1 << 24) -> list[list[int]]:
    """Tables of weights with this sum, some of the weights 0."""
    tables = []
    for _ in range(count):
        ends = sorted(dice.randrange(total + 1) for _ in range(width - 1))
        tables.append([end - start for start, end in zip([0, *ends], [*ends, total])])
    return tables


def random_symbols(dice: random.Random, tables: list[list[int]], indexes: list[int]) -> list[int]:
    return [dice.choice([k for k, weight in enumerate(tables[i]) if weight]) for i in indexes]


class Words(unittest.TestCase):
    """The words are those of a row for each symbol."""

    def test_three_coders(self) -> None:
        dice = random.Random(1)
        for count, width, length in (
            (1, 1, 5),
            (1, 7, 40),
            (3, 2, 200),
            (30, 5, 20),
            (40, 9, 41),
            (2, 300, 3),
            (5, 4, 0),
        ):
            tables = random_tables(dice, count, width)
            model = WeightTable(tables)
            indexes = [dice.randrange(count) for _ in range(length)]
            symbols, rows = random_symbols(dice, tables, indexes), [tables[i] for i in indexes]
            stack, queue, alone = AnsCoder(), RangeEncoder(), AnsCoder()
            stack.encode_reverse(symbols, model, indexes)
            queue.encode(symbols, model, indexes)
            for symbol, at in zip(reversed(symbols), reversed(indexes)):
                alone.encode_reverse(symbol, model, at)
            words, found = list(stack.get_compressed()), list(queue.get_compressed())
            self.assertEqual(words, by.ans_words(rows, symbols))
            self.assertEqual(words, list(alone.get_compressed()))
            self.assertEqual(found, by.range_words(rows, symbols))
            self.assertEqual(list(stack.decode(model, indexes)), symbols)
            self.assertEqual([alone.decode(model, at) for at in indexes], symbols)
            self.assertEqual(list(RangeDecoder(found).decode(model, tuple(indexes))), symbols)
            decoder = RangeDecoder(found)
            self.assertEqual([decoder.decode(model, at) for at in indexes], symbols)
            self.chain(model, rows, indexes)

    def chain(self, model: WeightTable, rows: list[list[int]], indexes: list[int]) -> None:
        """Decodes and encodes back with a chain coder."""
        words = [5 + 7919 * i for i in range(len(rows) + 4)]
        symbols, _, _ = by.chain_split(rows, words)
        coder, alone = ChainCoder(words), ChainCoder(words)
        self.assertEqual(list(coder.decode(model, indexes)), symbols)
        self.assertEqual([alone.decode(model, at) for at in indexes], symbols)
        self.assertEqual(coder, alone)
        coder.encode_reverse(symbols, model, indexes)
        self.assertEqual(coder, ChainCoder(words))

    def test_words_of_16_bits(self) -> None:
        dice = random.Random(2)
        for count, width in ((1, 5), (4, 3), (20, 6)):
            tables = random_tables(dice, count, width, 1 << 12)
            model = WeightTable(tables)
            indexes = [dice.randrange(count) for _ in range(12)]
            symbols, rows = random_symbols(dice, tables, indexes), [tables[i] for i in indexes]
            coder, other, queue = SmallAnsCoder(), SmallAnsCoder(), SmallRangeEncoder()
            coder.encode_reverse(symbols, model, indexes)
            other.encode_reverse(symbols, WeightTable(), rows)
            self.assertEqual(coder, other)
            self.assertEqual(list(coder.decode(model, indexes)), symbols)
            self.assertEqual([other.decode(model, at) for at in indexes], symbols)
            queue.encode(symbols, model, indexes)
            self.assertEqual(list(SmallRangeDecoder(queue.get_compressed()).decode(model, indexes)), symbols)
            words = [i + 1 for i in range(len(rows) + 4)]
            chain = SmallChainCoder(words)
            chain.encode_reverse(chain.decode(model, indexes), model, indexes)
            self.assertEqual(chain, SmallChainCoder(words))

    def test_probabilities(self) -> None:
        """Each row of probabilities is rounded as by itself, for words of both sizes."""
        rows = [[0.5, 0.25, 0.125], [1.0, 0.0, 2.0], [3, 1, 7], [1e-9, 0.3, 0.1]]
        indexes, symbols = [3, 0, 2, 1, 0, 3], [1, 2, 0, 1, 0, 0]
        for perfect in (True, False):
            model = Categorical(rows, perfect=perfect)
            tables = [Categorical(row, perfect=perfect).table().tolist() for row in rows]
            coder, other, small, little = AnsCoder(), AnsCoder(), SmallAnsCoder(), SmallAnsCoder()
            coder.encode_reverse(symbols, model, indexes)
            other.encode_reverse(symbols, WeightTable(tables), indexes)
            self.assertEqual(coder, other)
            self.assertEqual(coder.decode(model, indexes).tolist(), symbols)
            self.assertEqual([other.decode(model, at) for at in indexes], symbols)
            small.encode_reverse(symbols, model, indexes)
            little.encode_reverse(symbols, Categorical(perfect=perfect), [rows[i] for i in indexes])
            self.assertEqual(small, little)
            self.assertEqual([small.decode(model, at) for at in indexes], symbols)
        self.assertEqual(Categorical([[1, 2], [3, 1]]), Categorical([[0.25, 0.5], (0.75, 0.25)]))

    def test_forms_of_indexes(self) -> None:
        """Indexes may be in any list of whole numbers. One index may be for all symbols."""
        symbols = [0, 2, 2, 0]
        coder = AnsCoder()
        coder.encode_reverse(symbols, TWO, [1, 0, 0, 1])
        for form in (
            (1, 0, 0, 1),
            array("b", [1, 0, 0, 1]),
            array("Q", [1, 0, 0, 1]),
            (it & 1 for it in (1, 2, 4, 3)),
            [True, False, False, True],
        ):
            other = AnsCoder()
            other.encode_reverse(symbols, TWO, form)
            self.assertEqual(coder, other)
        for form in (1, [1]):
            coder, other = AnsCoder(), AnsCoder()
            coder.encode_reverse(symbols, TWO, form)
            other.encode_reverse(symbols, WeightTable([8388608, 0, 8388608]))
            self.assertEqual(coder, other)
        self.assertEqual(list(coder.decode(TWO, [1])), [0])
        self.assertEqual(list(coder.decode(TWO, range(1, 2))), [2])
        self.assertEqual(coder.decode(TWO, True), 2)

    def test_forms_of_tables(self) -> None:
        for form in (
            [array("I", [1, 16777215]), (16777216, 0)],
            ([1, 16777215], range(16777216, -1, -16777216)),
            [[1, 16777215], memoryview(array("H", [0, 0]))],
        ):
            model = WeightTable(form)
            self.assertEqual(model.size, 2)
            self.assertTrue(repr(model).startswith("WeightTable(<2 rows of 2 weights>"))
        view = memoryview(array("I", [1, 16777215, 16777216, 0]).tobytes()).cast("I", (2, 2))
        self.assertEqual(WeightTable(view), WeightTable([[1, 16777215], [16777216, 0]]))

    def test_long_list(self) -> None:
        """A list in several parts has the same words."""
        dice = random.Random(3)
        tables = random_tables(dice, 3, 4)
        model, indexes = WeightTable(tables), [dice.randrange(3) for _ in range(70000)]
        symbols = random_symbols(dice, tables, indexes)
        coder, encoder = AnsCoder(), RangeEncoder()
        coder.encode_reverse(symbols, model, indexes)
        encoder.encode(symbols, model, indexes)
        again = AnsCoder(coder.get_compressed())
        self.assertEqual([again.decode(model, at) for at in indexes[:100]], symbols[:100])
        self.assertEqual(coder.decode(model, indexes).tolist(), symbols)
        self.assertTrue(coder.is_empty())
        self.assertEqual(encoder.get_decoder().decode(model, indexes).tolist(), symbols)

    def test_copies(self) -> None:
        for it in (TWO, Categorical([[1, 2], [3, 4]]), Categorical([[1, 2], [3, 4]], perfect=False)):
            for other in (copy.copy(it), copy.deepcopy(it), pickle.loads(pickle.dumps(it))):
                self.assertEqual(it, other)
                coder = AnsCoder()
                coder.encode_reverse([0, 1, 0], other, [0, 0, 1])
                self.assertEqual(coder.decode(it, [0, 0, 1]).tolist(), [0, 1, 0])
        self.assertNotEqual(TWO, WeightTable([[3, 2, 16777211]]))
        self.assertNotEqual(Categorical([[1, 2]]), Categorical([1, 2]))
        self.assertNotEqual(Categorical([[1, 2, 1, 2]]), Categorical([[1, 2], [1, 2]]))
        self.assertEqual(repr(TWO), "WeightTable(<2 rows of 3 weights>)")
        self.assertEqual(
            repr(Categorical([[1, 2]], perfect=False)), "Categorical(<1 rows of 2 weights>, perfect=False)"
        )


class Faults(unittest.TestCase):
    """Each fault is named, and the coder is as before."""

    def refused(self, kind: type[Exception], text: str, symbols: Any, model: Any, *given: Any) -> None:
        """An encode and a decode with three coders are refused."""
        for coder in (AnsCoder([1, 2, 3]), RangeEncoder(), ChainCoder([1, 2, 3, 4, 5, 6])):
            before = coder.clone()
            encode = coder.encode if isinstance(coder, RangeEncoder) else coder.encode_reverse
            with self.assertRaisesRegex(kind, text):
                encode(symbols, model, *given)
            self.assertEqual(coder, before)

    def refused_decode(self, kind: type[Exception], text: str, model: Any, *given: Any, **more: Any) -> None:
        for coder in (AnsCoder([1, 2, 3]), RangeDecoder([1, 2, 3]), ChainCoder([1, 2, 3, 4, 5, 6])):
            before = coder.clone()
            with self.assertRaisesRegex(kind, text):
                coder.decode(model, *given, **more)
            self.assertEqual(coder, before)

    def test_indexes(self) -> None:
        wrong = errors.WrongLengthError
        for given, text in (
            ([0, 2, 0], "^expected indexes from 0 to 1, got 2 at place 1$"),
            ([0, 0, -1], "^expected indexes from 0 to 1, got -1 at place 2$"),
            ([0, 1 << 70, 0], f"^expected indexes from 0 to 1, got {1 << 70} at place 1$"),
        ):
            self.refused(wrong, text, [0, 0, 0], TWO, given)
            self.refused_decode(wrong, text, TWO, given)
        for number in (2, -1, 1 << 63, 1 << 70):
            self.refused(wrong, f"^expected indexes from 0 to 1, got {number} at place 0$", 0, TWO, number)
            self.refused_decode(wrong, f"^expected indexes from 0 to 1, got {number} at place 0$", TWO, number)
            self.refused(wrong, f"^expected indexes from 0 to 1, got {number} at place 0$", [0, 0], TWO, number)
        text = "^expected as many indexes as symbols, got 2 indexes and 3 symbols$"
        self.refused(wrong, text, [0, 0, 0], TWO, [0, 1])
        self.refused(
            wrong, "^expected as many indexes as symbols, got 3 indexes and 2 symbols$", [0, 0], TWO, [0, 1, 0]
        )
        for given in (0.0, [0.0], array("d", [0.0]), "0", ["0"]):
            self.refused(TypeError, "expected ", [0], TWO, given)
            self.refused_decode(TypeError, "expected ", TWO, given)
        text = r"^expected a list of parameters after the model \(indexes\), got none$"
        self.refused(TypeError, text, [0], TWO)
        self.refused(TypeError, text, 0, TWO)
        self.refused_decode(TypeError, text, TWO)
        self.refused_decode(TypeError, r"after the model \(indexes\), got a number of symbols$", TWO, amt=3)
        self.refused(TypeError, r"after the model \(indexes\), got 2$", [0], TWO, [0], [0])
        self.refused(TypeError, r"after the model \(indexes\), got 2$", 0, TWO, 0, 0)

    def test_symbols(self) -> None:
        impossible = errors.ImpossibleSymbolError
        self.refused(impossible, r"a weight above 0, got 1 at place 1\.$", [0, 1, 0], TWO, [0, 1, 1])
        self.refused(impossible, r"Expected 0 \.\. 2, got 3 at place 0\.$", [3, 0], TWO, [0, 1])
        self.refused(impossible, r"a weight above 0, got 1\.$", 1, TWO, 1)
        self.refused(impossible, r"Expected 0 \.\. 2, got -1\.$", -1, TWO, 1)

    def test_weights(self) -> None:
        """Every row has to have the right sum, also one without a symbol."""
        model, wrong = WeightTable([[8388608, 8388608], [8388608, 8388607]]), errors.WrongWeightsError
        text = "^expected weights with a sum of 16777216, got a sum of 16777215 in row 1$"
        for given in ([0, 0], [0, 1]):
            self.refused(wrong, text, [0, 0], model, given)
            self.refused_decode(wrong, text, model, given)
        self.refused(wrong, text, 0, model, 0)
        self.refused_decode(wrong, text, model, 0)
        self.refused(wrong, text, [], model, [])
        for coder in (SmallAnsCoder(), SmallRangeEncoder()):
            encode = coder.encode if isinstance(coder, SmallRangeEncoder) else coder.encode_reverse
            with self.assertRaisesRegex(wrong, "^expected weights with a sum of 4096, got a sum of 16777216 in row 0$"):
                encode([0, 0], TWO, [0, 0])
        with self.assertRaisesRegex(wrong, "a sum of 16777216, got a sum of 4096 in row 0$"):
            AnsCoder().encode_reverse([0], HALVES, [0])
        self.assertEqual(HALVES.at(SMALL).size, 3)

    def test_tables(self) -> None:
        """Rows have one width, and whole numbers that fit a word."""
        for kind, text, rows in (
            (errors.WrongLengthError, "^expected rows of one width, 2 as row 0, got 3 in row 1$", [[1, 2], [1, 2, 3]]),
            (errors.WrongWeightsError, "^expected at least one weight, got none in row 0$", [[], []]),
            (errors.WrongWeightsError, "at place 1 in row 1$", [[1, 2], [1, -2]]),
            (errors.WrongWeightsError, "at place 0 in row 0$", [[1 << 32, 2], [1, 2]]),
            (TypeError, "in row 1$", [[1, 2], [1.5, 2]]),
            (TypeError, "in row 1$", [[1, 2], 3]),
        ):  # fmt: skip
            with self.assertRaisesRegex(kind, text):
                WeightTable(rows)
        for kind, text, rows in (
            (ValueError, "in row 1$", [[1, 2], [0, 0]]),
            (ValueError, "in row 0$", [[-1.0, 2.0], [1, 1]]),
            (errors.WrongLengthError, "^expected rows of one width, 2 as row 0, got 1 in row 1$", [[1, 2], [1]]),
        ):  # fmt: skip
            with self.assertRaisesRegex(kind, text):
                Categorical(rows)
        with self.assertRaisesRegex(
            TypeError, r"^expected a list of parameters after the model \(indexes\), got none$"
        ):
            TWO.table()

    def test_many_coders(self) -> None:
        """Many coders in one call take no indexes."""
        coders = AnsCoders(2)
        with self.assertRaisesRegex(
            TypeError, "^expected a model of one table, or a row for each symbol, got rows with indexes$"
        ):
            coders.encode_reverse([[0, 0], [0, 0]], TWO, [[0, 1], [1, 0]])
        with self.assertRaisesRegex(
            TypeError, "^expected a model of one table, or a row for each symbol, got rows with indexes$"
        ):
            coders.decode(TWO, [[0, 1], [1, 0]])
        self.assertTrue(all(coders.is_empty() for _ in (0,)))


if __name__ == "__main__":
    unittest.main()
