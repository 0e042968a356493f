"""Calls of programs for the Rust crate's package, with its names, int32 symbols and float32 parameters. Results are
arrays of numpy. Words are compared with the definitions in whole numbers."""

from __future__ import annotations

import json
import math
import os
import re
import sys
import tempfile
import unittest
from pathlib import Path
from typing import Any

np: Any
try:
    import numpy as np
except ImportError:
    raise unittest.SkipTest("numpy is not there") from None

sys.path.insert(0, str(Path(__file__).resolve().parents[1]))

import constriction
import definitions as by
import definitions_of_models as models
from constriction import errors
from classes_of_families import KINDS, SCALES

model, stack, queue, chain = (
    constriction.stream.model, constriction.stream.stack, constriction.stream.queue, constriction.stream.chain,
)  # fmt: skip


def symbols(*given: int) -> Any:
    return np.array(given, dtype=np.int32)


def floats(*given: float) -> Any:
    return np.array(given, dtype=np.float32)


def makers(family: str, kind: Any) -> tuple[Any, ...]:
    """Returns three ways to make a model of a family, and its parameters, from the symbol before."""
    return (
        lambda it: (kind(-64, 63, 0.5 * it, 9.5), ()),
        lambda it: (kind(-64, 63), (0.5 * it, 9.5)),
        lambda it: (kind(-64, 63, **{SCALES[family]: 9.5}), (np.float32(0.5 * it),)),
    )


class Readings(unittest.TestCase):
    """A thermometer's hourly changes, in tenths of a degree, and a forecast of each."""

    changes = symbols(-14, 3, 22, 31, 8, -5, -27, -40, 2, 0, 0, 19)
    guesses = floats(-11.5, 0.25, 24.0, 28.75, 10.5, -8.0, -22.5, -36.0, 0.0, 1.5, -0.5, 16.0)
    doubts = floats(6.0, 2.5, 3.5, 8.25, 4.0, 4.0, 9.5, 12.0, 1.5, 0.75, 0.75, 5.5)

    def rows(self, least: int, greatest: int) -> list[list[int]]:
        pairs = zip(self.guesses.tolist(), self.doubts.tolist())
        return [models.table_of(models.GAUSSIAN, guess, doubt, least, greatest) for guess, doubt in pairs]

    def test_a_fixed_gaussian(self) -> None:
        """Symbols under one Gaussian have the words of the definitions."""
        gaussian, count = model.QuantizedGaussian(-64, 63, 1.5, 17.25), len(self.changes)
        rows = [models.table_of(models.GAUSSIAN, 1.5, 17.25, -64, 63)] * count
        places = [int(it) + 64 for it in self.changes]
        coder, encoder = stack.AnsCoder(), queue.RangeEncoder()
        coder.encode_reverse(self.changes, gaussian)
        encoder.encode(self.changes, gaussian)
        words, queued = coder.get_compressed(), encoder.get_compressed()
        self.assertEqual((words.dtype, words.tolist()), (np.uint32, by.ans_words(rows, places)))
        self.assertEqual((queued.dtype, queued.tolist()), (np.uint32, by.range_words(rows, places)))
        for decoder in (stack.AnsCoder(words), queue.RangeDecoder(queued)):
            found = decoder.decode(gaussian, count)
            self.assertEqual((found.dtype, found.tolist()), (np.int64, self.changes.tolist()))

    def test_a_gaussian_for_each(self) -> None:
        """Symbols with a Gaussian each have the words of the definitions."""
        family, rows, places = (
            model.QuantizedGaussian(-64, 63),
            self.rows(-64, 63),
            [int(it) + 64 for it in self.changes],
        )
        coder, encoder = stack.AnsCoder(), queue.RangeEncoder()
        coder.encode_reverse(self.changes, family, self.guesses, self.doubts)
        encoder.encode(self.changes, family, self.guesses, self.doubts)
        self.assertEqual(coder.get_compressed().tolist(), by.ans_words(rows, places))
        self.assertEqual(encoder.get_compressed().tolist(), by.range_words(rows, places))
        for decoder in (coder, encoder.get_decoder()):
            np.testing.assert_array_equal(decoder.decode(family, self.guesses, self.doubts), self.changes)

    def test_lists_under_several_models(self) -> None:
        """A queue returns the symbols in order. The last one is encoded onto a stack first."""
        kinds, family = symbols(2, 0, 1, 2, 2), model.QuantizedGaussian(-64, 63)
        shares = model.Categorical(floats(0.15, 0.25, 0.6), perfect=False)
        fair = model.Bernoulli(0.3125, perfect=False)
        lists = [(kinds, shares, ()), (self.changes, family, (self.guesses, self.doubts)), (symbols(1, 0, 0), fair, ())]
        coder, encoder = stack.AnsCoder(), queue.RangeEncoder()
        for some, which, given in lists:
            encoder.encode(some, which, *given)
        for some, which, given in lists[::-1]:
            coder.encode_reverse(some, which, *given)
        reader, top = queue.RangeDecoder(encoder.get_compressed()), stack.AnsCoder(coder.get_compressed())
        for decoder in (reader, top):
            for some, which, given in lists:
                np.testing.assert_array_equal(decoder.decode(which, *(given or (len(some),))), some)
        self.assertTrue(top.is_empty() and reader.maybe_exhausted())

    def test_a_model_from_the_symbols_before(self) -> None:
        """Each change is guessed from the one before, so both sides make a model for each symbol."""
        before = [0, *self.changes[:-1].tolist()]
        for make, family in ((it, family) for family, kind in KINDS.items() for it in makers(family, kind)):
            coder, encoder = stack.AnsCoder(), queue.RangeEncoder()
            for change, last in zip(self.changes, before):
                which, given = make(last)
                encoder.encode(change, which, *given)
            for change, last in list(zip(self.changes, before))[::-1]:
                which, given = make(last)
                coder.encode_reverse(change, which, *given)
            rows = [models.table_of(family, 0.5 * it, 9.5, -64, 63) for it in before]
            places = [int(it) + 64 for it in self.changes]
            self.assertEqual(encoder.get_compressed().tolist(), by.range_words(rows, places))
            self.assertEqual(coder.get_compressed().tolist(), by.ans_words(rows, places))
            for decoder in (encoder.get_decoder(), coder):
                found = [0]
                for _ in self.changes:
                    which, given = make(found[-1])
                    found.append(decoder.decode(which, *given))
                self.assertEqual(found[1:], self.changes.tolist())

    def test_places_that_are_gone_back_to(self) -> None:
        """Seeks return to recorded positions."""
        shares, days = model.Categorical(floats(5.0, 2.0, 1.0), lazy=True), [
            symbols(0, 0, 2),
            symbols(1, 0, 1, 1),
            symbols(2, 2),
        ]
        encoder, marks = queue.RangeEncoder(), []
        for day in days:
            marks.append(encoder.pos())
            encoder.encode(day, shares)
        decoder = queue.RangeDecoder(encoder.get_compressed())
        for i in (2, 0, 1, 1):
            decoder.seek(*marks[i])
            np.testing.assert_array_equal(decoder.decode(shares, len(days[i])), days[i])
        coder = stack.AnsCoder()
        coder.encode_reverse(days[0], shares)
        words, head = coder.pos()
        coder.encode_reverse(days[1], shares)
        coder.seek(words, head)
        np.testing.assert_array_equal(coder.decode(shares, 3), days[0])

    def test_words_as_symbols_and_back(self) -> None:
        """Any words decode to symbols, and encoding the symbols restores the words."""
        words = np.array([3141592653, 0, 2718281828, 1618033988, 0], dtype=np.uint32)
        family = model.QuantizedGaussian(-64, 63)
        coder = stack.AnsCoder(words, seal=True)
        self.assertEqual((coder.num_valid_bits(), coder.num_words()), (160, 6))
        found = coder.decode(family, self.guesses, self.doubts)
        coder.encode_reverse(found, family, self.guesses, self.doubts)
        for kept in (coder.get_binary(), coder.get_compressed(unseal=True)):
            np.testing.assert_array_equal(kept, words)

    def test_symbols_that_another_model_leaves_alone(self) -> None:
        """The chain coder's second and third symbols don't depend on the first row."""
        words, free = np.array([99, 2718281828, 1414213562, 577215664], dtype=np.uint32), model.Categorical(
            perfect=False
        )
        tail = [[0.4, 0.5, 0.1], [0.25, 0.25, 0.5]]
        found = [
            chain.ChainCoder(words, seal=True).decode(free, np.array([first, *tail], dtype=np.float32))
            for first in ([0.2, 0.2, 0.6], [0.9, 0.05, 0.05], [0.001, 0.998, 0.001])
        ]
        for other in found[1:]:
            np.testing.assert_array_equal(other[1:], found[0][1:])
        rows = np.array([[0.2, 0.2, 0.6], *tail], dtype=np.float32)
        coder = chain.ChainCoder(words, is_remainders=False, seal=True)
        taken = coder.decode(free, rows)
        again = chain.ChainCoder(np.concatenate(coder.get_remainders()), is_remainders=True)
        again.encode_reverse(taken, free, rows)
        np.testing.assert_array_equal(np.concatenate(again.get_data(unseal=True)), words)

    def test_functions_of_the_caller(self) -> None:
        """Models of the caller's functions or objects, with or without parameters."""

        class Gumbel:
            def cdf(self, x: float, loc: float = 0.0, scale: float = 1.0) -> Any:
                return np.float64(math.exp(-math.exp(min((loc - x) / scale, 700.0))))

        by_function = model.CustomModel(Gumbel().cdf, lambda q, *_: 0.0, -64, 63)
        for which in (by_function, model.ScipyModel(Gumbel(), -64, 63)):
            for given in ((), (self.guesses,), (self.guesses, self.doubts)):
                coder, encoder = stack.AnsCoder(), queue.RangeEncoder()
                coder.encode_reverse(self.changes, which, *given)
                encoder.encode(self.changes, which, *given)
                for decoder in (coder, encoder.get_decoder()):
                    found = decoder.decode(which, *(given or (len(self.changes),)))
                    np.testing.assert_array_equal(found, self.changes)

    def test_each_model(self) -> None:
        """Symbols under each model come back."""
        some, fifths = symbols(2, 0, 1, 2), floats(0.125, 0.75, 0.5, 0.25)
        shares = np.array([[1, 2, 4], [4, 2, 1], [1, 1, 1], [3, 1, 9]], dtype=np.float32)
        cases: list[tuple[Any, tuple[Any, ...]]] = [
            (kind(-7, 7, *own), given)
            for kind in (*KINDS.values(), model.QuantizedCauchy)
            for own, given in (((), (fifths, fifths)), ((0.75,), (fifths,)), ((0.75, 3.5), ()))
        ]
        cases += [
            (model.Categorical(lazy=False), (shares,)), (model.Categorical(shares[0], perfect=True), ()),
            (model.Uniform(), (symbols(3, 4, 5, 6),)), (model.Uniform(3), ()),
            (model.Binomial(), (symbols(2, 3, 4, 5), fifths)), (model.Binomial(5), (fifths,)), (model.Binomial(5, 0.375), ()),
        ]  # fmt: skip
        words = np.arange(2, 60, dtype=np.uint32)
        for which, given in cases:
            coder, encoder, wanted = stack.AnsCoder(), queue.RangeEncoder(), given or (len(some),)
            coder.encode_reverse(some, which, *given)
            encoder.encode(some, which, *given)
            np.testing.assert_array_equal(coder.decode(which, *wanted), some)
            np.testing.assert_array_equal(encoder.get_decoder().decode(which, *wanted), some)
            split = chain.ChainCoder(words)
            split.encode_reverse(split.decode(which, *wanted), which, *given)
            np.testing.assert_array_equal(np.concatenate(split.get_data()), words)

    def test_codewords(self) -> None:
        """Codewords come back."""
        shares, letters = floats(0.05, 0.45, 0.2, 0.3), [3, 1, 1, 0, 2, 1, 3, 3, 1]
        writing, reading = (
            constriction.symbol.huffman.EncoderHuffmanTree(shares), constriction.symbol.huffman.DecoderHuffmanTree(shares),
        )  # fmt: skip
        encoder, pile = constriction.symbol.QueueEncoder(), constriction.symbol.StackCoder()
        for letter in letters:
            encoder.encode_symbol(letter, writing)
        for letter in letters[::-1]:
            pile.encode_symbol(letter, writing)
        lengths = [3, 1, 3, 2]  # Merged first are 0.05 and 0.2, then what they make and 0.3.
        for words, bits in (encoder.get_compressed(), pile.get_compressed()):
            self.assertEqual((words.dtype, bits), (np.uint32, sum(lengths[it] for it in letters)))
        decoder, top = encoder.get_decoder(), constriction.symbol.StackCoder(pile.get_compressed()[0])
        for letter in letters:
            self.assertEqual((decoder.decode_symbol(reading), top.decode_symbol(reading)), (letter, letter))

    def test_weights_that_are_taken_along(self) -> None:
        """The script of python/README.md for the original package writes weights by calls of both packages."""
        page = (Path(__file__).resolve().parents[3] / "python/README.md").read_text()
        script = next(it for it in re.findall(r"```python\n(.*?)```", page, re.DOTALL) if "weights.json" in it)
        self.assertLessEqual(len(script.splitlines()), 11)
        before = os.getcwd()
        with tempfile.TemporaryDirectory() as folder:
            os.chdir(folder)
            try:
                exec(script, {})
            finally:
                os.chdir(before)
            weights = json.loads(Path(folder, "weights.json").read_text())
        self.assertEqual(weights, models.table_of(models.GAUSSIAN, 1.5, 8.0, -50, 50))
        self.assertEqual(model.WeightTable(weights).table(), model.QuantizedGaussian(-50, 50, 1.5, 8.0).table())

    def test_symbols_that_no_model_has(self) -> None:
        coder, shares = stack.AnsCoder(), model.Categorical(floats(0.5, 0.25, 0.25))
        for kind in (KeyError, ValueError, errors.ImpossibleSymbolError):
            with self.assertRaisesRegex(kind, r"^Impossible symbol\."):
                coder.encode_reverse(symbols(0, 3, 1), shares)
        self.assertTrue(coder.is_empty())


if __name__ == "__main__":
    unittest.main()
