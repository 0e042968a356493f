"""AnsCoder, RangeEncoder, RangeDecoder and ChainCoder."""

from __future__ import annotations

import doctest
import pickle
import random
import unittest
from array import array
from collections.abc import Iterator
from typing import Any
from unittest import mock

import definitions
from constriction import _buffers, _coding, _library, _words, errors
from constriction.stream import chain, queue, stack
from constriction.stream.chain import ChainCoder
from constriction.stream.model import Categorical, QuantizedGaussian, Uniform, WeightTable
from constriction.stream.queue import RangeDecoder, RangeEncoder
from constriction.stream.stack import AnsCoder

TWO = WeightTable([3, 2, 16777211])
HALVES = WeightTable([8388608, 8388608])
SEVERAL = WeightTable([1, 2, 16777213])
TEN = [0, 1, 2, 0, 1, 2, 0, 0, 0, 1]
#: Depths of a tide, in tenths of a metre around 0, what a forecast says of each, and how sure it is.
TIDE = [-31, -12, 8, 27, 40, 33, 14, -7, -60, 60]
FORECAST = [-28.5, -15.75, 6.0, 29.25, 38.0, 35.5, 11.0, -4.5, -58.0, 70.0]
SPREAD = [4.0, 4.0, 2.5, 2.5, 0.01, 6.0, 3.25, 3.25, 12.0, 1e4]
#: How often there was sun, rain, snow.
WEATHER = [11, 6, 1]


class RoundTrips(unittest.TestCase):
    """Lists under one model, under a forecast for each symbol, and under alternating models, with both coders."""

    def test_one_model(self) -> None:
        """Symbols under one model come back."""
        model = QuantizedGaussian(-60, 60, 4.5, 31.0)
        stack, queue = AnsCoder(), RangeEncoder()
        for some in (TIDE[:4], TIDE[4:]):
            queue.encode(some, model)
        for some in (TIDE[4:], TIDE[:4]):
            stack.encode_reverse(some, model)
        for words, make in ((stack.get_compressed(), AnsCoder), (queue.get_compressed(), RangeDecoder)):
            self.assertEqual(make(words).decode(model, amt=len(TIDE)), TIDE)
            coder = make(words)
            self.assertEqual([coder.decode(model) for _ in TIDE], TIDE)

    def test_a_forecast_for_each(self) -> None:
        """Symbols with a Gaussian each come back."""
        family, stack, queue = QuantizedGaussian(-60, 60), AnsCoder(), RangeEncoder()
        for _ in range(3):
            stack.encode_reverse(TIDE, family, FORECAST, SPREAD)
            queue.encode(TIDE, family, FORECAST, SPREAD)
        reader = queue.get_decoder()
        for _ in range(3):
            self.assertEqual(stack.decode(family, FORECAST, SPREAD), TIDE)
            self.assertEqual(reader.decode(family, FORECAST, SPREAD), TIDE)
        self.assertTrue(stack.is_empty() and reader.maybe_exhausted())

    def test_two_kinds_of_symbols_in_turn(self) -> None:
        """Symbols under alternating models come back."""
        tide, weather, days = QuantizedGaussian(-60, 60), Categorical(WEATHER), [0, 2, 0, 1, 1, 0, 0, 1, 0, 0]
        stack = AnsCoder()
        for day, depth, mean, std in reversed(list(zip(days, TIDE, FORECAST, SPREAD))):
            stack.encode_reverse(depth, tide, mean, std)
            stack.encode_reverse(day, weather)
        twin = AnsCoder(array("I", stack.get_compressed()))
        found = [(twin.decode(weather), twin.decode(tide, mean, std)) for mean, std in zip(FORECAST, SPREAD)]
        self.assertEqual(found, list(zip(days, TIDE)))

    def test_docstrings(self) -> None:
        for module in (stack, queue, chain):
            found = doctest.testmod(module)
            self.assertGreater(found.attempted, 0)
            self.assertEqual(found.failed, 0)


class Ans(unittest.TestCase):
    """The stack coder."""

    def test_worked_rows(self) -> None:
        """Some lists have expected words."""
        coder = AnsCoder()
        coder.encode_reverse(1, TWO)
        self.assertEqual(coder.pos(), (0, 3))
        coder.encode_reverse(1, TWO)
        self.assertEqual(coder.get_compressed(), [16777220])
        self.assertEqual(coder.decode(TWO, 2), [1, 1])
        self.assertTrue(coder.is_empty())
        coder.encode_reverse(TEN, SEVERAL)
        self.assertEqual(coder.get_compressed(), [0, 16777218, 2307, 16777218, 0, 64])
        self.assertEqual([coder.decode(SEVERAL) for _ in TEN], TEN)

    def test_binary(self) -> None:
        """Words in binary form come back."""
        coder = AnsCoder([5, 0], seal=True)
        self.assertEqual(coder.pos(), (1, 4294967296))
        self.assertEqual((coder.num_words(), coder.num_bits(), coder.num_valid_bits()), (3, 96, 64))
        self.assertEqual(coder.get_binary(), [5, 0])
        self.assertEqual(coder.get_compressed(unseal=True), [5, 0])
        self.assertEqual(AnsCoder([], seal=True).get_binary(), [])
        with self.assertRaisesRegex(
            errors.InvalidDataError, "^expected a coder that holds a whole number of words, got one that doesn't$"
        ):
            AnsCoder().get_binary()

    def test_zero_last_word(self) -> None:
        text = "^Tried to decode from compressed data that ends with a zero word, which is invalid for an ANS coder.$"
        with self.assertRaisesRegex(errors.InvalidDataError, text):
            AnsCoder([7, 0])
        self.assertTrue(AnsCoder([]).is_empty())

    def test_sizes(self) -> None:
        """The numbers of words and bits are those of the export."""
        coder = AnsCoder()
        self.assertEqual((coder.num_words(), coder.num_bits(), coder.num_valid_bits()), (0, 0, 0))
        coder.encode_reverse(TEN, SEVERAL)
        self.assertEqual((coder.num_words(), coder.num_bits()), (6, 192))
        self.assertEqual(coder.num_valid_bits(), 4 * 32 + 38)
        coder.clear()
        self.assertTrue(coder.is_empty())

    def test_bits_back(self) -> None:
        """Bits back restores the coder."""
        dice = random.Random(1)
        words = [dice.randrange(1 << 32) for _ in range(1000)]
        family = QuantizedGaussian(-20, 20)
        means, stds = [dice.gauss(0, 5) for _ in range(700)], [dice.uniform(0.5, 9) for _ in range(700)]
        coder = AnsCoder(words, seal=True)
        symbols = coder.decode(family, means, stds)
        coder.encode_reverse(symbols, family, means, stds)
        self.assertEqual(coder.get_binary(), words)

    def test_seek(self) -> None:
        """A seek returns to a recorded position."""
        coder = AnsCoder()
        coder.encode_reverse(TEN, SEVERAL)
        position = coder.pos()
        coder.encode_reverse(TEN[::-1], SEVERAL)
        later = coder.clone()
        coder.seek(*position)
        self.assertEqual(coder.decode(SEVERAL, 10), TEN)
        self.assertEqual(later.decode(SEVERAL, 20), TEN[::-1] + TEN)
        with self.assertRaises(errors.WrongLengthError):
            coder.seek(1000, 0)

    def test_seek_forth_and_back(self) -> None:
        """Seeks go to positions in any order, until a word is overwritten, and copy no words."""
        dice, writer, marks = random.Random(31), AnsCoder(), []
        lists = [[dice.randrange(3) for _ in range(dice.randrange(1, 40))] for _ in range(60)]
        for it in lists:
            writer.encode_reverse(it, SEVERAL)
            marks.append(writer.pos())
        reader = AnsCoder(writer.get_compressed())
        memory = reader._state.words.memory
        for copy in (reader, reader.clone(), pickle.loads(pickle.dumps(reader))):
            for i in [dice.randrange(60) for _ in range(200)]:
                copy.seek(*marks[i])
                self.assertEqual(copy.decode(SEVERAL), lists[i][0])
                self.assertEqual(copy.decode(SEVERAL, len(lists[i]) - 1), lists[i][1:])
                self.assertEqual(copy.pos(), marks[i - 1] if i else (0, 0))
                if i % 7 == 0:  # An export between leaves the words above as they are.
                    self.assertEqual(AnsCoder(copy.get_compressed()).pos(), copy.pos())
                    copy = pickle.loads(pickle.dumps(copy)) if copy is not reader else copy
        self.assertIs(reader._state.words.memory, memory)
        reader.seek(*marks[30])
        reader.encode_reverse([1] * 40, SEVERAL)  # Forty symbols of two chances in 2^24 are past a word.
        self.assertGreater(reader.pos()[0], marks[30][0])
        with self.assertRaises(errors.WrongLengthError):
            reader.seek(*marks[59])
        self.assertEqual(reader.decode(SEVERAL, 40), [1] * 40)
        self.assertEqual(reader.decode(SEVERAL, len(lists[30])), lists[30])
        reader.clear()
        self.assertRaises(errors.WrongLengthError, reader.seek, 1, 5)

    def test_refusals(self) -> None:
        """After an error, the coder is unchanged."""
        coder = AnsCoder()
        coder.encode_reverse(TEN, SEVERAL)
        before = coder.pos(), coder.get_compressed()
        with self.assertRaisesRegex(errors.ImpossibleSymbolError, r"^Impossible symbol\. "):
            coder.encode_reverse([0, 1, 3], SEVERAL)
        for symbol in (-1, 3, 1 << 63, 1 << 64, -(1 << 70)):
            for model in (SEVERAL, QuantizedGaussian(3, 5, 4.0, 1.0)):
                if symbol != 3 or model is SEVERAL:
                    self.assertRaises(errors.ImpossibleSymbolError, coder.encode_reverse, [symbol], model)
        with self.assertRaises(errors.ImpossibleSymbolError):
            coder.encode_reverse([51], QuantizedGaussian(-50, 50), [0.0], [1.0])
        with self.assertRaisesRegex(
            errors.WrongWeightsError, "^expected weights with a sum of 16777216, got a sum of 3$"
        ):
            coder.encode_reverse(0, WeightTable([1, 2]))
        with self.assertRaises(errors.WrongWeightsError):
            coder.decode(WeightTable(), [[16777216, 0], [16777216, 1]])
        with self.assertRaises(TypeError):
            coder.encode_reverse([0.5], SEVERAL)
        with self.assertRaises(TypeError):
            coder.decode(QuantizedGaussian(-50, 50), 3)
        with self.assertRaises(TypeError):
            AnsCoder(b"words")
        self.assertEqual((coder.pos(), coder.get_compressed()), before)

    def test_words_ahead_of_a_refused_list(self) -> None:
        """A list that is refused in a later part keeps the words ahead."""
        coder, symbols = AnsCoder(), [i * 11 % 256 for i in range(256)]
        coder.encode_reverse(symbols, Uniform(256))
        end, begin, words = coder.pos(), coder.clone(), coder.get_compressed().tolist()
        begin.decode(Uniform(256), 256)
        for wrong, model, *rows in (
            ([9] + [1] * 200, WeightTable(), [[1 << 24]] + [[1 << 23, 1 << 23]] * 200),
            ([9] + [1] * (1 << 17), HALVES),
        ):
            self.assertEqual(coder.decode(Uniform(256), 256).tolist(), symbols)
            self.assertRaises(errors.ImpossibleSymbolError, coder.encode_reverse, wrong, model, *rows)
            self.assertEqual((coder, pickle.dumps(coder)), (begin, pickle.dumps(begin)))
            coder.seek(*end)
            self.assertEqual(coder.get_compressed().tolist(), words)

    def test_words_ahead_of_an_encode(self) -> None:
        """Only an encode that writes a word drops the words ahead."""
        fixed = WeightTable([1, (1 << 24) - 1])
        for count in (1, 2, 3, 4, 7, 40):
            for symbols in (1, [1], [1] * 9, [1] * 99):
                coder = AnsCoder(list(range(5, 5 + count)))
                coder.decode(Uniform(2), 7)
                end, words = coder.pos(), coder.get_compressed().tolist()
                coder.seek(0, 1)
                before = coder.clone()
                coder.encode_reverse(symbols, fixed)
                if isinstance(symbols, list):
                    coder.decode(fixed, len(symbols))
                else:
                    coder.decode(fixed)
                self.assertEqual(pickle.dumps(coder), pickle.dumps(before))
                coder.seek(*end)
                self.assertEqual(coder.get_compressed().tolist(), words)
                coder.seek(0, (1 << 64) - 1)
                coder.encode_reverse([0], fixed)  # It writes a word.
                if end[0] > 1:
                    self.assertRaises(errors.WrongLengthError, coder.seek, *end)

    def test_lists_beside_the_definition(self) -> None:
        """Random lists have the words of the definition, from any buffer."""
        dice = random.Random(2)
        for count in (0, 1, 2, 3, 10, 100, 1000):
            weights = definitions.random_weights(dice, 9)
            symbols = [definitions.random_symbol(dice, weights) for _ in range(count)]
            wanted = definitions.ans_words([weights] * count, symbols)
            arrays = [array(code, symbols) for code in "qQiB"]
            views = [memoryview(it) for it in arrays] + [memoryview(arrays[0].tobytes()).cast("q")]
            for given in (symbols, tuple(symbols), *arrays, *views):
                coder = AnsCoder()
                coder.encode_reverse(given, WeightTable(weights))
                self.assertEqual(coder.get_compressed(), wanted)
            self.assertEqual(AnsCoder(array("I", wanted)).decode(WeightTable(array("I", weights)), count), symbols)

    def test_rows_beside_the_definition(self) -> None:
        """Symbols with a row of weights each have the words of the definition."""
        dice = random.Random(3)
        tables = [definitions.random_weights(dice, 5) for _ in range(300)]
        symbols = [definitions.random_symbol(dice, it) for it in tables]
        coder = AnsCoder()
        coder.encode_reverse(symbols, WeightTable(), tables)
        self.assertEqual(coder.get_compressed(), definitions.ans_words(tables, symbols))
        self.assertEqual(coder.decode(WeightTable(), tables), symbols)

    def test_long_lists(self) -> None:
        """Long lists come back."""
        symbols = array("Q", range(500)) * 100
        coder = AnsCoder()
        for _ in range(3):
            coder.encode_reverse(symbols, Uniform(500))
        self.assertEqual(coder.decode(Uniform(500), 150000), list(range(500)) * 300)
        self.assertTrue(coder.is_empty())

    def test_long_lists_are_refused_whole(self) -> None:
        """A long list with an impossible symbol changes nothing."""
        long = array("Q", [0, 1, 2, 2]) * 50000
        for place in (0, 65536, 131071, 199999):
            wrong = long[:]
            wrong[place] = 3
            coder, encoder = AnsCoder(), RangeEncoder()
            coder.encode_reverse(TEN, SEVERAL), encoder.encode(TEN, SEVERAL)
            before = coder.pos(), coder.get_compressed(), encoder.pos(), encoder.get_compressed()
            self.assertRaises(errors.ImpossibleSymbolError, coder.encode_reverse, wrong, SEVERAL)
            self.assertRaises(errors.ImpossibleSymbolError, encoder.encode, wrong, SEVERAL)
            self.assertEqual((coder.pos(), coder.get_compressed(), encoder.pos(), encoder.get_compressed()), before)
        coder.encode_reverse(long, SEVERAL), encoder.encode(long, SEVERAL)
        parts = RangeEncoder()
        for part in (TEN, long[:70001], long[70001:]):
            parts.encode(part, SEVERAL)
        self.assertEqual(encoder.get_compressed(), parts.get_compressed())
        self.assertEqual(coder.decode(SEVERAL, 200010), long.tolist() + TEN)
        self.assertEqual(encoder.get_decoder().decode(SEVERAL, 200010), TEN + long.tolist())
        chain = ChainCoder(array("I", [5]) * 10000)
        before = chain.get_remainders()
        self.assertRaises(errors.OutOfDataError, chain.decode, HALVES, 200000)
        self.assertEqual(chain.get_remainders(), before)


class Range(unittest.TestCase):
    """The range coder."""

    def test_worked_rows(self) -> None:
        """Some lists have expected words."""
        encoder = RangeEncoder()
        self.assertEqual((encoder.get_compressed(), encoder.num_words(), encoder.is_empty()), ([], 0, True))
        self.assertTrue(encoder.get_decoder().maybe_exhausted())
        encoder.encode(1, HALVES)
        self.assertEqual((encoder.get_compressed(), encoder.num_bits(), encoder.is_empty()), ([2147483648], 32, False))
        self.assertEqual(RangeDecoder([2147483648]).decode(HALVES), 1)
        encoder.clear()
        encoder.encode(TEN, SEVERAL)
        self.assertEqual(encoder.get_compressed(), [0, 65535, 100661761, 4294837757, 0, 4])
        self.assertEqual(encoder.get_decoder().decode(SEVERAL, 10), TEN)

    def test_invalid_data(self) -> None:
        decoder = RangeDecoder([4294967295, 4294967295])
        text = "^Tried to decode from compressed data that is invalid for the employed entropy model.$"
        for _ in range(2):
            with self.assertRaisesRegex(errors.InvalidDataError, text):
                decoder.decode(TWO, 1)

    def test_positions(self) -> None:
        """A decoder seeks to recorded positions in any order, and refuses invalid ones."""
        dice = random.Random(4)
        encoder, positions = RangeEncoder(), []
        lists = [
            [definitions.random_symbol(dice, [1, 2, 16777213]) for _ in range(dice.randrange(30))] for _ in range(30)
        ]
        for it in lists:
            positions.append(encoder.pos())
            encoder.encode(it, SEVERAL)
        decoder = encoder.get_decoder()
        for position, it in reversed(list(zip(positions, lists))):
            decoder.seek(*position)
            other = decoder.clone()
            self.assertEqual(decoder.decode(SEVERAL, len(it)), it)
            self.assertEqual(other.decode(SEVERAL, len(it)), it)
        with self.assertRaises(errors.Refusal):
            decoder.seek(100000, (0, 1 << 63))
        with self.assertRaises(errors.InvalidDataError):
            decoder.seek(0, (0, 1))

    def test_exhausted(self) -> None:
        """A decoder may be exhausted only after all symbols."""
        encoder = RangeEncoder()
        encoder.encode(TEN * 10, TWO)
        decoder = encoder.get_decoder()
        self.assertFalse(decoder.maybe_exhausted())
        decoder.decode(TWO, 100)
        self.assertTrue(decoder.maybe_exhausted())

    @unittest.skipUnless(
        "range_into_self_delimited_u32" in _library._FUNCTIONS, "the library has no self-delimiting seal"
    )
    def test_self_delimiting(self) -> None:
        """Any words may follow self-delimiting words."""
        dice = random.Random(14)
        for count in (0, 1, 2, 5, 40):
            symbols = [dice.randrange(3) for _ in range(count)]
            encoder = RangeEncoder()
            encoder.encode(symbols, SEVERAL)
            words = encoder.get_compressed(self_delimiting=True)
            self.assertEqual(encoder.get_compressed(self_delimiting=True), words)
            ones = [(1 << 32) - 1] * 5
            for behind in ([], [0] * 5, ones, [dice.randrange(1 << 32)]):
                if not count and behind == ones:
                    continue  # No symbols, and so no words: a decoder of such words alone is at no symbol.
                self.assertEqual(RangeDecoder([*words, *behind]).decode(SEVERAL, count), symbols)
        self.assertEqual(RangeEncoder().get_compressed(self_delimiting=True), [])

    def test_goes_on_after_an_export(self) -> None:
        """An encoder goes on after an export."""
        encoder = RangeEncoder()
        for symbol in TEN:
            encoder.encode(symbol, SEVERAL)
            copy = encoder.clone()
            self.assertEqual(copy.get_compressed(), encoder.get_compressed())
        self.assertEqual(encoder.get_compressed(), [0, 65535, 100661761, 4294837757, 0, 4])

    def test_beside_the_definition(self) -> None:
        """Random lists have the words of the definition."""
        dice = random.Random(5)
        for count in (0, 1, 2, 3, 10, 100, 1000):
            tables = [definitions.random_weights(dice, 5) for _ in range(count)]
            symbols = [definitions.random_symbol(dice, it) for it in tables]
            encoder = RangeEncoder()
            encoder.encode(symbols, WeightTable(), tables)
            self.assertEqual(encoder.get_compressed(), definitions.range_words(tables, symbols))
            self.assertEqual(encoder.get_decoder().decode(WeightTable(), tables), symbols)

    def test_carries(self) -> None:
        """Carries change pending words as the definition says."""
        # Symbols next to the upper end of their interval hold words back.
        dice, weights = random.Random(6), [8388607, 1, 8388607, 1]
        for _ in range(100):
            symbols = [dice.choice((1, 1, 1, 3, 0, 2)) for _ in range(dice.randrange(30))]
            encoder = RangeEncoder()
            for i in range(0, len(symbols), 3):
                encoder.encode(symbols[i : i + 3], WeightTable(weights))
            self.assertEqual(encoder.get_compressed(), definitions.range_words([weights] * len(symbols), symbols))
            self.assertEqual(encoder.get_decoder().decode(WeightTable(weights), len(symbols)), symbols)

    def test_carries_over_many_words(self) -> None:
        """A carry changes many pending words."""
        # Intervals that hold the point 1/2, then one behind it or in front of it.
        for steps in range(6, 30):
            for last in (-1, 1):
                start, length, half, tables = 0, (1 << 64) - 1, 1 << 63, []
                for i in range(steps + 1):
                    unit = length >> 24
                    left = (half - start) // unit + (last if i == steps else 0)
                    tables.append([left, 1, (1 << 24) - left - 1])
                    start, length = start + unit * left, unit
                    if length < 1 << 32:
                        start, length, half = start << 32, length << 32, half << 32
                encoder = RangeEncoder()
                encoder.encode([1] * steps, WeightTable(), tables[:-1])
                self.assertEqual(encoder._state.words.length, 0)
                encoder.encode([1], WeightTable(), tables[-1:])
                self.assertEqual(encoder.get_compressed(), definitions.range_words(tables, [1] * (steps + 1)))
                self.assertEqual(encoder.get_compressed()[0], (1 << 31) - (last < 0))
                self.assertEqual(encoder.get_decoder().decode(WeightTable(), tables), [1] * (steps + 1))


class Chain(unittest.TestCase):
    """The chain coder."""

    def test_worked_rows(self) -> None:
        """Some words have expected symbols and remainders, and invalid words are refused."""
        coder = ChainCoder([0x11223344, 0x100])
        self.assertEqual(coder.decode(WeightTable([0x223344, 1, 16777215 - 0x223344])), 1)
        with self.assertRaisesRegex(errors.OutOfDataError, r"^Out of compressed data\.$"):
            coder.decode(HALVES)
        coder = ChainCoder([287454020, 256])
        self.assertEqual(coder.decode(HALVES, 1), [0])
        self.assertEqual(coder.get_remainders(), ([], [2149724996, 273]))
        with self.assertRaises(errors.InvalidDataError):
            coder.get_data()
        for words, seal in (([], False), ([], True), ([7, 0], False)):
            with self.assertRaisesRegex(
                errors.InvalidDataError,
                "^expected enough words, of which the last isn't 0, got too few words, or a last word of 0$",
            ):
                ChainCoder(words, seal=seal)

    def test_there_and_back(self) -> None:
        """Symbols are those of the definition, and encoding them back restores the words."""
        dice = random.Random(7)
        for seal in (False, True):
            words = [*(dice.randrange(1 << 32) for _ in range(500)), 0 if seal else 1]
            tables = [definitions.random_weights(dice, 5) for _ in range(400)]
            coder = ChainCoder(words, seal=seal)
            symbols = coder.decode(WeightTable(), tables)
            if not seal:
                self.assertEqual((list(symbols), *coder.get_remainders()), definitions.chain_split(tables, words))
            left, remainders = coder.get_remainders()
            coder.encode_reverse(symbols, WeightTable(), tables)
            self.assertEqual(coder.get_data(unseal=seal), ([], words))
            again = ChainCoder(left + remainders, is_remainders=True)
            again.encode_reverse(symbols, WeightTable(), tables)
            below, above = again.get_data(unseal=seal)
            self.assertEqual(list(below + above), words)

    def test_isolation(self) -> None:
        dice = random.Random(8)
        words = [dice.randrange(1, 1 << 32) for _ in range(50)]
        one, other = ChainCoder(words), ChainCoder(words)
        one.decode(TWO, 5), other.decode(Uniform(1000), 5)
        self.assertEqual(one.decode(Uniform(7), 20), other.decode(Uniform(7), 20))

    def test_counts_past_the_words(self) -> None:
        """A decode of more symbols than the words have asks for no memory for all of them."""
        asked: list[int] = []
        original = _buffers.room

        def room(code: str, count: int, *kind: Any) -> Any:
            asked.append(count)
            return original(code, count, *kind)

        for words, seal in (([1, 2, 3, 4], False), ([1, 2, 3, 4], True), ([9] * 60, True), ([1 << 31] * 3, False)):
            coder = ChainCoder(words, seal=seal)
            for skipped in range(4):
                most = sum(1 for _ in self.symbols(coder.clone()))
                with mock.patch.object(_coding, "room", room), mock.patch.object(_words, "room", room):
                    for count in (most + 1, most + 2, 10**6, 10**13):
                        before, asked[:] = coder.get_remainders(), []
                        self.assertRaisesRegex(
                            errors.OutOfDataError, r"^Out of compressed data\.$", coder.decode, Uniform(7), count
                        )
                        self.assertRaises(errors.WrongWeightsError, coder.decode, WeightTable([5]), count)
                        self.assertLess(max(asked), 200)
                        self.assertEqual(coder.get_remainders(), before)
                self.assertEqual(len(coder.clone().decode(Uniform(7), most)), most)
                if most:
                    coder.decode(Uniform(7))

    def symbols(self, coder: ChainCoder) -> Iterator[int]:
        """Decodes symbols until the words end."""
        try:
            while True:
                yield coder.decode(Uniform(7))
        except errors.OutOfDataError:
            pass

    def test_refusals(self) -> None:
        """After an error, the coder is unchanged."""
        coder = ChainCoder([1, 2, 3, 4])
        before = coder.get_remainders()
        with self.assertRaises(errors.ImpossibleSymbolError):
            coder.encode_reverse([2], HALVES)
        with self.assertRaisesRegex(errors.OutOfDataError, r"^Out of remainders information from previous decoding\.$"):
            coder.encode_reverse([0] * 100, Uniform(2))
        with self.assertRaises(errors.OutOfDataError):
            coder.decode(WeightTable(), [[8388608, 8388608]] * 100)
        with self.assertRaises(ValueError):
            ChainCoder([1, 2, 3], is_remainders=True, seal=True)
        self.assertEqual(coder.get_remainders(), before)
        copy = coder.clone()
        copy.decode(HALVES)
        self.assertEqual(coder.get_remainders(), before)


if __name__ == "__main__":
    unittest.main()
