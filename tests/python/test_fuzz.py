"""20,000 random operations, compared with the definitions, with copies, pickles and threads."""

from __future__ import annotations

import copy
import pickle
import random
import threading
import unittest
from typing import Any

import definitions
from constriction import errors
from constriction.stream.chain import ChainCoder
from constriction.stream.model import WeightTable
from constriction.stream.queue import RangeDecoder, RangeEncoder
from constriction.stream.stack import AnsCoder
from constriction.symbol import EncoderHuffmanTree, ExpGolomb, QueueDecoder, QueueEncoder, StackCoder

PRECISION, WORD = definitions.PRECISION, definitions.WORD
OPERATIONS = 20_000


def again(dice: random.Random, coder: Any) -> Any:
    """Returns the coder, or a copy of it."""
    way = dice.randrange(12)
    if way == 0:
        return coder.clone()
    if way == 1:
        return copy.copy(coder)
    if way == 2:
        return copy.deepcopy(coder)
    return pickle.loads(pickle.dumps(coder)) if way == 3 else coder


def table(dice: random.Random) -> list[int]:
    """Returns random weights."""
    return definitions.random_weights(dice, dice.choice((1, 2, 3, 7)))


class Ans:
    """A stack coder, and its definition."""

    def __init__(self) -> None:
        self.coder = AnsCoder()
        self.model = definitions.Stack(definitions.sizes(), definitions.Words())
        self.symbols: list[tuple[list[int], int]] = []

    def step(self, dice: random.Random) -> None:
        """Encodes or decodes, and compares the position."""
        self.coder = again(dice, self.coder)
        weights = table(dice)
        if dice.random() < 0.1:
            before = self.coder.pos()
            try:
                self.coder.encode_reverse([0, len(weights)], WeightTable(weights))
                raise AssertionError("an impossible symbol was encoded")
            except errors.ImpossibleSymbolError:
                assert self.coder.pos() == before
        if dice.random() < 0.6 or not self.symbols:
            given = [definitions.random_symbol(dice, weights) for _ in range(dice.randrange(1, 4))]
            if dice.random() < 0.5:
                self.coder.encode_reverse(given, WeightTable(weights))
            else:
                self.coder.encode_reverse(given, WeightTable(), [weights] * len(given))
            for symbol in reversed(given):
                self.model.put(weights, symbol)
                self.symbols.append((weights, symbol))
        else:
            weights, symbol = self.symbols.pop()
            assert self.coder.decode(WeightTable(weights)) == symbol
            assert self.model.take(weights) == symbol
        assert self.coder.pos() == (len(self.model.side.words), self.model.head)

    def end(self) -> None:
        """Compares the words."""
        tables, symbols = [it[0] for it in self.symbols[::-1]], [it[1] for it in self.symbols[::-1]]
        assert list(self.coder.get_compressed()) == definitions.ans_words(tables, symbols)


class Range:
    """A range coder, and its symbols with their weights. After 40 symbols, the words are compared."""

    def __init__(self) -> None:
        self.restart()

    def restart(self) -> None:
        """Begins with a new encoder."""
        self.encoder, self.tables, self.symbols = RangeEncoder(), list[list[int]](), list[int]()

    def step(self, dice: random.Random) -> None:
        """Encodes a symbol."""
        self.encoder = again(dice, self.encoder)
        weights = table(dice)
        symbol = definitions.random_symbol(dice, weights)
        self.encoder.encode([symbol], WeightTable(weights))
        self.tables.append(weights)
        self.symbols.append(symbol)
        if len(self.symbols) == 40:
            self.end(dice)

    def end(self, dice: random.Random) -> None:
        """Compares the words, decodes them, and begins again."""
        words = list(self.encoder.get_compressed())
        assert words == definitions.range_words(self.tables, self.symbols)
        decoder: Any = RangeDecoder(words)
        for weights, symbol in zip(self.tables, self.symbols):
            decoder = again(dice, decoder)
            assert decoder.decode(WeightTable(weights)) == symbol
        self.restart()


class Chain:
    """A chain coder, which decodes as the definition says, and encodes the symbols back."""

    def step(self, dice: random.Random) -> None:
        """Decodes random words, compares the symbols and remainders, and encodes them back."""
        words = [dice.randrange(WORD) for _ in range(8)] + [dice.randrange(1, WORD)]
        tables = [table(dice) for _ in range(7)]
        coder: Any = again(dice, ChainCoder(words))
        found = [coder.decode(WeightTable(it)) for it in tables]
        assert (found, *map(list, coder.get_remainders())) == definitions.chain_split(tables, words)
        coder = again(dice, coder)
        coder.encode_reverse(found, WeightTable(), tables)
        assert list(coder.get_data()[1]) == words


class Bits:
    """A queue and a stack of codewords as strings."""

    def __init__(self) -> None:
        self.weights = [[1], [2, 2, 4, 1, 1], [5, 0, 0, 3]]
        self.trees = [EncoderHuffmanTree(it) for it in self.weights]
        self.codewords = [definitions.huffman_codewords(it) for it in self.weights]
        self.restart()

    def restart(self) -> None:
        """Begins with new coders."""
        self.queue, self.stack = QueueEncoder(), StackCoder()
        self.queued, self.stacked = list[tuple[Any, int, str]](), list[tuple[Any, int, str]]()

    def some(self, dice: random.Random) -> tuple[Any, int, str]:
        """Returns a codebook, a symbol and its codeword."""
        k = dice.randrange(len(self.trees) + 1)
        if k == len(self.trees):
            number = dice.choice((0, 3, WORD - 1, dice.randrange(WORD), dice.randrange(50)))
            return ExpGolomb(), number, definitions.golomb_codeword(number)
        symbol = dice.randrange(len(self.weights[k]))
        return self.trees[k], symbol, self.codewords[k][symbol]

    def step(self, dice: random.Random) -> None:
        """Encodes symbols to both coders, or decodes one from the stack."""
        self.queue, self.stack = again(dice, self.queue), again(dice, self.stack)
        book, symbol, codeword = self.some(dice)
        count = dice.choice((1, 1, 2, 70))
        self.queue.encode([symbol] * count, book)
        self.queued += [(book, symbol, codeword)] * count
        if self.stacked and dice.random() < 0.4:
            book, symbol, _ = self.stacked.pop()
            assert self.stack.decode_symbol(book) == symbol
        else:
            self.stack.encode_reverse([symbol] * count, book)
            self.stacked += [(book, symbol, codeword)] * count
        if len(self.queued) > 400:
            self.end(dice)

    def end(self, dice: random.Random) -> None:
        """Compares the words of both coders, decodes the queue, and begins again."""
        queued = "".join(it[2] for it in self.queued)
        words, bits = self.queue.get_compressed()
        assert (list(words), bits) == (definitions.queue_words(queued), len(queued))
        stacked = "".join(it[2][::-1] for it in self.stacked)
        words_of_stack, bits = self.stack.get_compressed()
        assert (list(words_of_stack), bits) == (definitions.stack_words(stacked), len(stacked))
        decoder: Any = QueueDecoder(words)
        for book, symbol, _ in self.queued:
            decoder = again(dice, decoder)
            assert decoder.decode_symbol(book) == symbol
        self.restart()


class Fuzz(unittest.TestCase):
    """Random operations of all coders."""

    def test_operations(self) -> None:
        """Four threads make random operations."""
        done, raised = [0] * 4, list[BaseException]()

        def work(seed: int) -> None:
            """Makes a thread's operations."""
            # Each thread has its own coders.
            dice, models = random.Random(seed), [Ans(), Range(), Chain(), Bits()]
            try:
                for _ in range(OPERATIONS // 4):
                    dice.choices(models, (8, 8, 1, 4))[0].step(dice)
                    done[seed] += 1
                models[0].end()  # type: ignore[union-attr, call-arg]
            except BaseException as it:
                raised.append(it)

        threads = [threading.Thread(target=work, args=(it,)) for it in range(4)]
        for it in threads:
            it.start()
        for it in threads:
            it.join()
        if raised:
            raise raised[0]
        self.assertEqual(sum(done), OPERATIONS)


if __name__ == "__main__":
    unittest.main()
