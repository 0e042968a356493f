"""Stores: look-ups of chunks, words in a file, untrusted words and entries."""

from __future__ import annotations

import doctest
import mmap
import random
import tempfile
import unittest
from array import array
from ctypes import byref, c_size_t
from itertools import product
from pathlib import Path
from typing import Any

from constriction import errors, store
from constriction._buffers import lent
from constriction._library import call
from constriction.store import MOST_SYMBOLS, Store
from constriction.stream.model import QuantizedGaussian, Uniform, WeightTable
from constriction.stream.queue import RangeDecoder, RangeEncoder
from definitions import random_symbol, random_weights

HALVES = WeightTable([8388608, 8388608])
THREE = [[1, 0], [], [1]]


def some_chunks() -> list[list[int]]:
    draw = random.Random(7)
    return [[draw.randrange(-50, 51) for _ in range(draw.randrange(100))] for _ in range(100)]


def built_by_function(chunks: list[list[int]], model: WeightTable) -> tuple[list[int], list[tuple[Any, ...]]]:
    """Returns the words and the index of chunks, by the C function."""
    symbols = array("q", [symbol for chunk in chunks for symbol in chunk])
    lengths = array("Q", [len(chunk) for chunk in chunks])
    words, weights = array("I", [0]) * (len(symbols) + 2), model.table()
    positions, lowers, ranges = (array("Q", [0]) * len(chunks) for _ in range(3))
    count, needed = c_size_t(0), c_size_t(0)
    call(
        "store_build_u32", lent(words), len(words), byref(count), lent(positions), len(chunks), lent(lowers), len(chunks),
        lent(ranges), len(chunks), lent(weights), len(weights), lent(symbols), len(symbols), lent(lengths), len(chunks),
        byref(needed),
    )  # fmt: skip
    states = zip(lowers, ranges)
    return list(words[: count.value]), [(place, state, many) for place, state, many in zip(positions, states, lengths)]


def looked_up_by_function(words: list[int], entry: tuple[Any, ...], model: WeightTable) -> list[int]:
    """Returns the chunk at an entry, by the C function."""
    place, state, many = entry
    memory, symbols, weights = array("I", words), array("q", [0]) * many, model.table()
    call("store_chunk_u32", lent(memory), len(memory), place, *state, lent(weights), len(weights), lent(symbols), many)
    return list(symbols)


class Stores(unittest.TestCase):
    """Stores and their look-ups."""

    def test_what_has_no_order(self) -> None:
        """Sets and dicts of chunks or of entries are refused."""
        store = Store.build([[1, 0, 3], [2]], Uniform(4))
        for chunks in ({(1, 0, 3), (2,)}, {(1, 0, 3): 1, (2,): 2}):
            with self.assertRaisesRegex(TypeError, "^expected a list of chunks, got "):
                Store.build(chunks, Uniform(4))
        for index in (set(store.index), dict.fromkeys(store.index)):
            with self.assertRaisesRegex(TypeError, "^expected a list of entries, got "):
                Store.from_parts(store.words, index, Uniform(4))

    def test_arrays_of_two_dimensions(self) -> None:
        """All symbols of a chunk are stored, also those of an array of two dimensions."""
        table = memoryview(array("q", range(6))).cast("B").cast("q", (2, 3))
        store = Store.build([table, [7], iter([8, 0])], Uniform(9))  # type: ignore[list-item]
        self.assertEqual([it.tolist() for it in store], [[0, 1, 2, 3, 4, 5], [7], [8, 0]])
        self.assertEqual([it.count for it in store.index], [6, 1, 2])

    def test_words_in_other_memory(self) -> None:
        """Words of a list, or that aren't one after another, are refused with what is expected."""
        for wrong, text in (([1, 2], "got list$"), (memoryview(array("I", [1, 2, 3]))[::2], "one after another$")):
            with self.assertRaisesRegex(TypeError, "^expected a buffer of .*" + text):
                Store.from_parts(wrong, [], HALVES)

    def test_other_objects_are_no_models(self) -> None:
        """Parts with another object in place of the model are refused."""
        store, call = Store.build([[1]], Uniform(9)), Store.from_parts
        for wrong in (3, None, [1, 2]):
            self.assertRaisesRegex(TypeError, "^expected a model ", call, store.words, store.index, wrong)

    def test_three(self) -> None:
        found = Store.build(THREE, HALVES)
        self.assertEqual(list(found.words), [2684354560])
        self.assertEqual([list(found.chunk(i)) for i in (2, 1, 0)], [[1], [], [1, 0]])
        self.assertEqual([count for _, _, count in found.index], [2, 0, 1])
        self.assertEqual(found.index[0][:2], RangeEncoder().pos())

    def test_as_a_sequence(self) -> None:
        """A store is a sequence of chunks."""
        found = Store.build(THREE, HALVES)
        self.assertEqual(len(found), 3)
        self.assertEqual([list(chunk) for chunk in found], THREE)
        self.assertEqual([list(chunk) for chunk in found[::-1]], THREE[::-1])
        self.assertEqual(list(found[-1]), [1])
        for i in (3, -4, 1 << 70):
            with self.assertRaisesRegex(
                IndexError, "^expected the number of one of 3 chunks, got (3|-4|1180591620717411303424)$"
            ):
                found[i]
        for i in (3, -1):
            with self.assertRaisesRegex(IndexError, f"^expected the number of one of 3 chunks, got {i}$"):
                found.chunk(i)
        with self.assertRaises(TypeError):
            found["0"]

    def test_words_are_those_of_one_encoder(self) -> None:
        """A store has the words and positions of one range encoder."""
        chunks, model = some_chunks(), QuantizedGaussian(-50, 50, 0.0, 20.0)
        encoder = RangeEncoder()
        found = Store.build(chunks, model)
        for chunk, entry in zip(chunks, found.index):
            self.assertEqual(encoder.pos(), entry[:2])
            encoder.encode(chunk, model)
        self.assertEqual(list(found.words), list(encoder.get_compressed(self_delimiting=True)))
        decoder = RangeDecoder(found.words)
        for chunk in chunks:
            self.assertEqual(list(decoder.decode(model, len(chunk))), chunk)

    def test_any_order_and_whatever_follows(self) -> None:
        """Chunks can be looked up in any order, and any words may follow."""
        chunks, model = some_chunks(), QuantizedGaussian(-50, 50, 0.0, 20.0)
        built = Store.build(iter(chunks), model)
        for behind in ([], [0], [0xFFFFFFFF] * 5, [1, 2, 3]):
            found = Store.from_parts(array("I", [*built.words, *behind]), built.index, model)
            order = [*range(100), *reversed(range(100)), 7, 7]
            self.assertEqual([list(found[i]) for i in order], [chunks[i] for i in order])

    def test_of_a_file(self) -> None:
        """A store reads the words of a mapped file."""
        chunks, model = some_chunks(), QuantizedGaussian(-50, 50, 0.0, 20.0)
        built = Store.build(chunks, model)
        with tempfile.TemporaryDirectory() as folder:
            path = Path(folder, "words")
            path.write_bytes(bytes(built.words))
            with open(path, "rb") as file, mmap.mmap(file.fileno(), 0, access=mmap.ACCESS_READ) as memory:
                found = Store.from_parts(memory, built.index, model)
                self.assertEqual([list(chunk) for chunk in found], chunks)

    def test_buffers(self) -> None:
        """A store reads words from buffers, and refuses other values."""
        built = Store.build(THREE, HALVES)
        data = bytes(built.words)
        for words in (data, bytearray(data), memoryview(data), memoryview(built.words), array("I", built.words)):
            self.assertEqual(list(Store.from_parts(words, built.index, HALVES)[0]), [1, 0])
        for bad in (data[:3], b"abcde"):
            with self.assertRaisesRegex(errors.WrongLengthError, f"^expected words of 4 bytes, got {len(bad)} bytes$"):
                Store.from_parts(bad, [], HALVES)
        for words in ([1, 2], "ab", array("d", [1.0])):
            with self.assertRaises(TypeError):
                Store.from_parts(words, [], HALVES)

    def test_only_the_words_of_the_chunk_are_copied(self) -> None:
        """A look-up copies only the words of its chunk."""
        chunks, model = [[1, 2, 3]] * 1000, Uniform(16)
        built = Store.build(chunks, model)
        asked: list[tuple[int, int]] = []

        class Watched(Store):
            def _words_from(self, place: int, count: int) -> Any:
                asked.append((place, count))
                return super()._words_from(place, count)

        found = Watched.from_parts(built.words, built.index, model)
        self.assertEqual(list(found[500]), [1, 2, 3])
        self.assertEqual(asked, [(built.index[500].position, 5)])

    def test_refusals(self) -> None:
        """Impossible symbols, too many symbols and other models are refused."""
        with self.assertRaisesRegex(errors.ImpossibleSymbolError, "Impossible symbol."):
            Store.build([[0], [1, 2]], HALVES)
        with self.assertRaisesRegex(
            errors.WrongLengthError, "^expected at most 1048576 symbols in all chunks, got more$"
        ):
            Store.build([array("q", [0]) * MOST_SYMBOLS, [0]], HALVES)
        with self.assertRaises(TypeError):
            Store.build([[1]], QuantizedGaussian(-50, 50))
        empty = Store.build([], HALVES)
        self.assertEqual((len(empty), list(empty.words)), (0, []))
        with self.assertRaises(IndexError):
            empty.chunk(0)

    def test_parts_of_a_stranger(self) -> None:
        """Untrusted words and entries decode to symbols or are refused."""
        start = RangeEncoder().pos()
        words = array("I", [0xFFFFFFFF, 0xFFFFFFFF])
        found = Store.from_parts(words, [(*start, 1)], HALVES)
        with self.assertRaisesRegex(
            errors.InvalidDataError, "^expected words that encode the symbols of chunk 0, got others$"
        ):
            found.chunk(0)
        at_end = Store.from_parts(words, [(2, start[1], 1)], HALVES)
        self.assertEqual(list(at_end.chunk(0)), [0])
        for entry in ((3, start[1], 1), (-1, start[1], 1), (0, start[1], -1), (0, start[1], MOST_SYMBOLS + 1)):
            text = (
                "got more$"
                if entry[2] > 1
                else f"words 0 .. 2, got chunk 0 of {entry[2]} symbols that begins at word {entry[0]}$"
            )
            with self.assertRaisesRegex(errors.WrongLengthError, text):
                Store.from_parts(words, [entry], HALVES)
        with self.assertRaisesRegex(errors.WrongLengthError, "in all chunks, got more$"):
            Store.from_parts(words, [(*start, MOST_SYMBOLS), (*start, 1)], HALVES)

    def test_hostile_parts(self) -> None:
        """A look-up has the symbols of a decoder at the entry's position, or both refuse it."""
        numbers = (0, 1, 1 << 31, (1 << 32) - 1)
        states = ((0, (1 << 64) - 1), (0, 1 << 32), ((1 << 64) - 1, 1 << 40), (5, 3), (0, 0))
        for count in range(3):
            for words in product(numbers, repeat=count):
                for place, state, many in product(range(count + 1), states, range(3)):
                    found = Store.from_parts(array("I", words), [(place, state, many)], HALVES)
                    decoder = RangeDecoder(words)
                    try:
                        decoder.seek(place, state)
                        wanted = list(decoder.decode(HALVES, many)) if many else []
                    except errors.InvalidDataError:
                        with self.assertRaisesRegex(
                            errors.InvalidDataError, "^expected words that encode the symbols of chunk 0, got others$"
                        ):
                            found.chunk(0)
                    else:
                        self.assertEqual(list(found.chunk(0)), wanted)

    def test_as_the_functions(self) -> None:
        """The C functions build the same words and index, and return the same chunks."""
        draw = random.Random(11)
        for kinds in (2, 5, 300):
            weights = random_weights(draw, kinds)
            model = WeightTable(weights)
            chunks = [
                [random_symbol(draw, weights) for _ in range(draw.randrange(30))] for _ in range(draw.randrange(40))
            ]
            built = Store.build(chunks, model)
            words, index = built_by_function(chunks, model)
            self.assertEqual(list(built.words), words)
            self.assertEqual([tuple(entry) for entry in built.index], index)
            for place in draw.sample(range(len(chunks)), len(chunks)):
                self.assertEqual(looked_up_by_function(words, index[place], model), chunks[place])

    def test_hostile_parts_as_the_functions(self) -> None:
        """Random words and entries have the results of the C functions."""
        draw = random.Random(12)
        for _ in range(3000):
            words = [
                draw.choice((0, 1, 1 << 31, (1 << 32) - 1, draw.randrange(1 << 32))) for _ in range(draw.randrange(4))
            ]
            state = draw.choice((0, (1 << 64) - 1, draw.randrange(1 << 64))), draw.choice(
                (0, (1 << 64) - 1, draw.randrange(1 << 64))
            )
            entry = draw.randrange(len(words) + 1), state, draw.randrange(5)
            found = Store.from_parts(array("I", words), [entry], HALVES)
            try:
                wanted = looked_up_by_function(words, entry, HALVES)
            except errors.InvalidDataError:
                with self.assertRaises(errors.InvalidDataError):
                    found.chunk(0)
            else:
                self.assertEqual(list(found.chunk(0)), wanted)

    def test_examples(self) -> None:
        self.assertEqual(doctest.testmod(store).failed, 0)
