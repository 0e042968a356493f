"""Arrays of numpy as arguments and results, of each type, byte order and shape."""

from __future__ import annotations

import copy
import math
import os
import pickle
import random
import subprocess
import sys
import unittest
from array import array
from pathlib import Path
from typing import Any
from unittest import mock

from constriction import _units, errors
from constriction._sizes import LARGE
from constriction.store import Store
from constriction.stream.chain import ChainCoder

from constriction.stream.model import (
    Bernoulli, Categorical, QuantizedGaussian, Uniform, WeightTable,
)  # fmt: skip
from constriction.stream.queue import RangeDecoder, RangeEncoder
from constriction.stream.stack import AnsCoder
from constriction.symbol import (
    DecoderHuffmanTree,
    EncoderHuffmanTree,
    ExpGolomb,
    QueueDecoder,
    QueueEncoder,
    StackCoder,
)

numpy: Any
try:
    import numpy
except ImportError:
    raise unittest.SkipTest("numpy is not there") from None

sys.path.insert(0, str(Path(__file__).resolve().parents[1]))

import definitions_of_models as models  # noqa: E402
from classes_of_families import KINDS  # noqa: E402

TEN, WEIGHTS, WORDS = [0, 1, 2, 0, 1, 2, 0, 0, 0, 1], [1, 2, 16777213], [0, 16777218, 2307, 16777218, 0, 64]
WHOLE_KINDS = ("int64", "uint64", "int32", "uint8", ">i8", ">i4", "<i2", ">u2", "int8")


class Numpy(unittest.TestCase):
    """Arrays of numpy in calls."""

    def test_symbols_weights_and_words(self) -> None:
        """Symbols, weights and words may have any type of whole numbers and byte order."""
        for kind in WHOLE_KINDS:
            coder, model = AnsCoder(), WeightTable(numpy.array(WEIGHTS, dtype=numpy.uint32))
            coder.encode_reverse(numpy.array(TEN, dtype=kind), model)
            words = coder.get_compressed()
            self.assertEqual((type(words), words.dtype, words.tolist()), (numpy.ndarray, numpy.uint32, WORDS))
            words.flags.writeable = False
            found = AnsCoder(words.astype(">u4")).decode(model, numpy.int64(10))
            self.assertEqual((type(found), found.dtype, found.tolist()), (numpy.ndarray, numpy.int64, TEN))
            found[0] = 7  # It is the caller's own.

    def test_one_kind_of_answers(self) -> None:
        """All answers are arrays of numpy, even if the program doesn't import numpy itself."""
        program = """
import sys
{}
from constriction.stream.model import Uniform
from constriction.stream.stack import AnsCoder
coder = AnsCoder([5, 6, 7])
kinds = [type(it).__name__ for it in (coder.get_compressed(), coder.decode(Uniform(3), 2))]
try:
    import numpy
except ImportError:
    pass
print(*kinds, type(coder.decode(Uniform(3), 2)).__name__)
"""
        for line, kind in (("", "ndarray"), ("sys.modules['numpy'] = None", "Numbers")):
            ran = subprocess.run([sys.executable, "-c", program.format(line)], capture_output=True, text=True)
            self.assertEqual((ran.stdout, ran.stderr), (f"{kind} {kind} {kind}\n", ""))

    def test_a_thread_that_imports_numpy(self) -> None:
        """Calls beside the import find numpy whole or not at all, and each answer is an array of numpy."""
        program = """
import sys
from threading import Thread
from constriction.stream.model import Categorical, QuantizedGaussian, Uniform
from constriction.stream.stack import AnsCoder
sys.setswitchinterval(1e-6)
model, family, coder, calls = Uniform(7), QuantizedGaussian(-9, 9), AnsCoder(), 0
thread = Thread(target=__import__, args=("numpy",))
thread.start()
while thread.is_alive():
    coder.encode_reverse([1, 2, 3] * 40, model)
    coder.encode_reverse([1, 2, 3] * 20, family, [0.5] * 60, [2.0] * 60)
    coder.encode_reverse([0, 1], Categorical(), [[1, 2], [3, 4]])
    coder.encode_reverse(2, Categorical([0.5] * 40))
    calls += 1
found = coder.decode(Categorical([0.5] * 40)), *coder.decode(Categorical(), [[1, 2], [3, 4]]).tolist()
print(calls > 0, found, type(coder.decode(family, [0.5] * 60, [2.0] * 60)).__name__)
"""
        for _ in range(3):
            ran = subprocess.run([sys.executable, "-c", program], capture_output=True, text=True)
            self.assertEqual((ran.stdout, ran.stderr), ("True (2, 0, 1) ndarray\n", ""))

    def test_symbols_that_begin_elsewhere(self) -> None:
        """Symbols of a range that doesn't begin at 0 may have any type."""
        message, model = [-3, 0, 4, -9], QuantizedGaussian(-9, 9, 0.0, 3.0)
        wanted = AnsCoder()
        wanted.encode_reverse(message, model)
        for kind in ("int64", "int32", ">i4", "int8"):
            coder = AnsCoder()
            coder.encode_reverse(numpy.array(message, dtype=kind), model)
            self.assertEqual(coder.pos(), wanted.pos())
        for wrong in ([1 << 63], [(1 << 64) - 1]):
            with self.assertRaises(errors.ImpossibleSymbolError):
                AnsCoder().encode_reverse(numpy.array(wrong, dtype="uint64"), model)
        for wrong in ([-(1 << 63)], [(1 << 63) - 1]):
            with self.assertRaises(errors.ImpossibleSymbolError):
                AnsCoder().encode_reverse(numpy.array(wrong, dtype="int64"), model)

    def test_floats_are_no_symbols(self) -> None:
        """Arrays of floats are refused as symbols."""
        family, fixed = QuantizedGaussian(-9, 9), QuantizedGaussian(-9, 9, 0.0, 3.0)
        for symbols in (numpy.array([1.9, -2.9]), numpy.array([1.0, -2.0], dtype="float32"), numpy.float64(1.0)):
            for model, given in ((fixed, ()), (family, ([0.0, 0.0], [1.0, 1.0])), (WeightTable(WEIGHTS), ())):
                if symbols.ndim or not given:
                    with self.assertRaisesRegex(TypeError, "astype"):
                        AnsCoder().encode_reverse(symbols, model, *given)
                    with self.assertRaisesRegex(TypeError, "astype"):
                        RangeEncoder().encode(symbols, model, *given)
        with self.assertRaisesRegex(TypeError, "astype"):
            QueueEncoder().encode(numpy.array([1.0]), ExpGolomb())
        with self.assertRaisesRegex(TypeError, "astype"):
            AnsCoder(numpy.array([1.0]))

    def test_parts_of_arrays(self) -> None:
        every_other = numpy.repeat(numpy.array(TEN), 2)[::2]
        for given in (every_other, numpy.array(TEN[::-1])[::-1]):
            coder = AnsCoder()
            coder.encode_reverse(given, WeightTable(WEIGHTS))
            self.assertEqual(coder.get_compressed().tolist(), WORDS)

    def test_parameters(self) -> None:
        """Parameters may have any type of numbers."""
        message, means, stds = numpy.arange(-20, 20), numpy.linspace(-9, 9, 40), numpy.linspace(1, 9, 40)
        encoder, family, fixed = RangeEncoder(), QuantizedGaussian(-50, 50), QuantizedGaussian(-50, 50, 0.0, 9.0)
        for kind in ("float64", "float32", "float16", ">f4", ">f8", "int32"):
            encoder.encode(message, fixed)
            encoder.encode(message, family, means.astype(kind), stds.astype(kind))
        decoder = RangeDecoder(encoder.get_compressed())
        for kind in ("float64", "float32", "float16", ">f4", ">f8", "int32"):
            self.assertEqual(decoder.decode(fixed, 40).tolist(), message.tolist())
            self.assertEqual(decoder.decode(family, means.astype(kind), stds.astype(kind)).tolist(), message.tolist())

    def test_many_parameters(self) -> None:
        """Many parameters are passed in parts, under each family, with all coders and other types of symbols."""
        dice = numpy.random.default_rng(3)
        means, stds = dice.uniform(-30, 30, 150_000), dice.uniform(0.1, 20, 150_000)
        symbols = numpy.clip(numpy.rint(dice.normal(means, stds)), -40, 40).astype("int32")
        for kind in KINDS.values():
            family, coder, encoder = kind(-40, 40), AnsCoder(), RangeEncoder()
            coder.encode_reverse(symbols, family, means, stds)
            encoder.encode(symbols, family, means, stds)
            for found in (coder.decode(family, means, stds), encoder.get_decoder().decode(family, means, stds)):
                self.assertEqual((type(found), found.dtype), (numpy.ndarray, numpy.int64))
                self.assertTrue((found == symbols).all())
            self.assertTrue(coder.is_empty())
            words = dice.integers(1, 1 << 32, 150_000, dtype="uint32")
            chain = ChainCoder(words)
            chain.encode_reverse(chain.decode(family, means, stds), family, means, stds)
            self.assertEqual(numpy.concatenate(chain.get_data()).tolist(), words.tolist())

    def test_the_same_as_without_numpy(self) -> None:
        """Parameters are rounded alike, and the words are the same."""
        dice = random.Random(9)
        exact = [(k + 0.5) * 2.0**-16 for k in range(-20, 20)] + [2.0**k for k in range(-30, 100)] + [5e-324, 1e308]
        given = exact + [dice.choice((-1, 1)) * math.exp(dice.uniform(-30, 30)) for _ in range(1000)]
        means, stds = array("d", given), array("d", (min(abs(it), 65535.99999) for it in given))
        chances = array("d", (it for it in stds if it <= 1))
        with mock.patch.object(_units, "numpy_module", return_value=None):
            wanted_parts = _units.parts_of(chances, LARGE)
        self.assertEqual(_units.parts_of(chances, LARGE), wanted_parts)
        with mock.patch.dict("sys.modules", numpy=None):
            wanted_rows = list(Bernoulli().rows((chances,)))
        self.assertEqual(list(Bernoulli().rows((chances,))), wanted_rows)
        ours = _units.locations_of("mean", means), _units.scales_of("std", stds)
        with mock.patch.object(_units, "numpy_module", return_value=None):
            theirs = _units.locations_of("mean", means), _units.scales_of("std", stds)
        self.assertEqual(ours, theirs)
        self.assertEqual((ours[0].typecode, ours[1].typecode), ("q", "I"))
        symbols = [dice.randrange(-9, 10) for _ in given]
        for make in (numpy.array, list, tuple, lambda it: it, lambda it: numpy.array(it, dtype=">f8")):
            coder, wanted = AnsCoder(), AnsCoder()
            coder.encode_reverse(symbols, QuantizedGaussian(-9, 9), make(means), make(stds))
            with mock.patch.dict("sys.modules", numpy=None):
                wanted.encode_reverse(symbols, QuantizedGaussian(-9, 9), means, stds)
                words = list(wanted.get_compressed())
            self.assertEqual(coder.get_compressed().tolist(), words)

    def test_refused_parameters(self) -> None:
        """Arrays with invalid parameters, or of other lengths, are refused."""
        family, good = QuantizedGaussian(-9, 9), numpy.ones(3)
        for wrong in (numpy.nan, numpy.inf, -numpy.inf):
            for given in ((numpy.array([0.0, 1.0, wrong]), good), (good, numpy.array([0.5, wrong, 1.0]))):
                self.assertRaises(ValueError, AnsCoder().encode_reverse, [1, 2, 3], family, *given)
                self.assertRaises(ValueError, AnsCoder().decode, family, *given)
        for wrong in (0.0, -0.0, -1.0, -5e-324):
            self.assertRaises(ValueError, AnsCoder().decode, family, good, numpy.array([0.5, wrong, 1.0]))
        self.assertRaises(ValueError, AnsCoder().decode, family, good, good[:2])
        self.assertRaises(ValueError, AnsCoder().encode_reverse, numpy.arange(2), family, good, good)
        self.assertRaises(
            errors.ImpossibleSymbolError, AnsCoder().encode_reverse, numpy.array([1, 10, 2]), family, good, good
        )
        self.assertRaises(TypeError, AnsCoder().decode, family, good.astype("complex128"), good)

    def test_floats_of_more_bits(self) -> None:
        """Floats of more bits are rounded to 64 bits, and refused past these, without a warning."""
        long, family = numpy.longdouble, QuantizedGaussian(-9, 9)
        coder, wanted = AnsCoder(), AnsCoder()
        coder.encode_reverse([1, 2], family, numpy.array([0.1, 0.2], dtype=long), numpy.array([1.5, 2.5], dtype=long))
        wanted.encode_reverse([1, 2], family, [float(long(0.1)), 0.2], [1.5, 2.5])
        self.assertEqual(coder, wanted)
        self.assertEqual(Categorical(numpy.array([0.1, 0.9], dtype=long)).table(), Categorical([0.1, 0.9]).table())
        huge = (
            numpy.array([1.0, 2.0], dtype=long) * long(10) ** 400
            if numpy.finfo(long).max > 1e308
            else numpy.array([numpy.inf] * 2)
        )
        for call in (
            lambda: coder.decode(family, huge, [1.0, 1.0]), lambda: coder.decode(family, [0.0, 0.0], huge), lambda: Categorical(huge),
            lambda: coder.decode(Bernoulli(), huge), lambda: coder.decode(Categorical(), huge.reshape(1, 2)), lambda: coder.decode(family, huge[0], 1.0),
        ):  # fmt: skip
            self.assertRaises(ValueError, call)

    def test_probabilities(self) -> None:
        """Probabilities have the same weights from arrays and lists."""
        chances = numpy.array([0.1, 0.0, 0.2, 0.7])
        for kind in ("float64", "float32", "float16", ">f8"):
            given = chances.astype(kind)
            self.assertEqual(list(Categorical(given).table()), list(Categorical(given.tolist()).table()))
        self.assertEqual(list(Categorical(numpy.array([3, 1, 4])).table()), list(Categorical([3, 1, 4]).table()))
        self.assertEqual(
            list(Bernoulli(numpy.float32(0.3)).table()), list(Bernoulli(float(numpy.float32(0.3))).table())
        )

    def test_rows(self) -> None:
        """Rows of weights and of probabilities may be arrays of two dimensions."""
        rows = numpy.tile(numpy.array(WEIGHTS, dtype=numpy.uint32), (10, 1))
        coder = AnsCoder()
        coder.encode_reverse(numpy.array(TEN), WeightTable(), rows)
        self.assertEqual(coder.get_compressed().tolist(), WORDS)
        self.assertEqual(coder.decode(WeightTable(), rows).tolist(), TEN)
        chances = numpy.tile(numpy.array([0.25, 0.5, 0.25], dtype="float16"), (10, 1))
        coder.encode_reverse(TEN, Categorical(), chances)
        self.assertEqual(coder.decode(Categorical(), chances).tolist(), TEN)

    def test_tables_by_index(self) -> None:
        """Tables may be an array of two dimensions, and indexes and symbols arrays of any shape and type."""
        shares = numpy.linspace(0.5, 3.0, 60).reshape(6, 10)
        model = Categorical(shares)
        self.assertEqual(model, Categorical(shares.tolist()))
        weights = numpy.stack([Categorical(row).table() for row in shares])
        symbols = numpy.arange(12).reshape(3, 4) % 10
        for kind in WHOLE_KINDS:
            indexes, other = (numpy.arange(12).reshape(3, 4) * 5 % 6).astype(kind), WeightTable(weights.astype(">u4"))
            coder, listed = AnsCoder(), AnsCoder()
            coder.encode_reverse(symbols, model, indexes)
            listed.encode_reverse(symbols.ravel().tolist(), other, indexes.ravel().tolist())
            self.assertEqual(coder, listed)
            self.assertEqual(coder.decode(other, indexes[0]).tolist(), symbols[0].tolist())
            self.assertEqual(coder.decode(other, indexes[1, 0]), symbols[1, 0])
            into = numpy.empty(3, dtype=numpy.int64)
            self.assertIs(coder.decode(other, indexes[1, 1:], out=into), into)
            self.assertEqual(into.tolist(), symbols[1, 1:].tolist())
            found = coder.decode(other, indexes[2:], dtype="uint8")
            self.assertEqual((found.dtype, found.tolist()), (numpy.uint8, symbols[2:].tolist()))
        coder.encode_reverse(symbols, model, numpy.array([[1], [2], [3]]))
        self.assertEqual([coder.decode(model, at) for at in (1, 1, 1, 1, 2)], [0, 1, 2, 3, 4])
        wrong = (
            (TypeError, "^expected whole numbers, got float64", numpy.zeros(1)),
            (TypeError, "masked array", numpy.ma.array([1])),
            (errors.WrongLengthError, "^expected indexes from 0 to 5, got 6 at place 0$", numpy.array([6])),
            (errors.WrongLengthError, f"got {2**64 - 1} at place 0$", numpy.array([2**64 - 1], dtype="uint64")),
            (errors.WrongLengthError, r"shape \(1, 1\)", numpy.array([[1]])),
        )
        for error, text, given in wrong:
            with self.assertRaisesRegex(error, text):
                coder.encode_reverse([0], model, given)
        for error, text, given in (
            (errors.WrongWeightsError, "^expected at least one table, got none$", numpy.zeros((0, 3), dtype="uint8")),
            (errors.WrongWeightsError, "^expected at least one weight, got none in row 0$", numpy.zeros((3, 0))),
            (TypeError, "dimensions", numpy.zeros((1, 1, 1), dtype="uint8")),
            (TypeError, "in row 0$", numpy.zeros((1, 1))),
        ):  # fmt: skip
            with self.assertRaisesRegex(error, text):
                WeightTable(given)

    def test_shapes(self) -> None:
        """Arrays of other dimensions are refused, and an array without dimensions is a number."""
        table, block = numpy.zeros((2, 3), dtype="int64"), numpy.zeros((2, 3, 1), dtype="int64")
        for call in (
            lambda: AnsCoder(table), lambda: ExpGolomb().symbols(table), lambda: WeightTable(block), lambda: EncoderHuffmanTree(table),
            lambda: Categorical(block),
        ):  # fmt: skip
            self.assertRaisesRegex(TypeError, "dimensions", call)
        coder = AnsCoder()
        coder.encode_reverse(numpy.array(1), WeightTable(WEIGHTS))
        self.assertEqual(coder.decode(WeightTable(WEIGHTS)), 1)
        coder.encode_reverse(numpy.array([]), WeightTable(WEIGHTS))
        self.assertTrue(coder.is_empty())

    def test_whole_weights_of_trees(self) -> None:
        """Weights of trees may be arrays."""
        weights = [3, 2, 2000000000]
        wanted = EncoderHuffmanTree(weights)
        for given in (numpy.array(weights), [numpy.int64(it) for it in weights], numpy.array(weights, dtype="uint32")):
            self.assertEqual(list(EncoderHuffmanTree(given)._weights), list(wanted._weights))
        for given in ([3, 2, 4000000000], numpy.array([3, 2, 4000000000])):
            self.assertEqual([EncoderHuffmanTree(given).codeword(i)[1] for i in range(3)], [2, 2, 1])
            self.assertEqual(list(DecoderHuffmanTree(given)._weights), [3, 2, 4000000000])

    def test_masked_arrays(self) -> None:
        """Masked arrays are refused everywhere."""
        masked = numpy.ma.masked_array([1, 0, 2], mask=[False, True, False])
        family, model = QuantizedGaussian(-9, 9), WeightTable(WEIGHTS)
        for call in (
            lambda: AnsCoder().encode_reverse(masked, model), lambda: AnsCoder(masked), lambda: WeightTable(masked), lambda: Categorical(masked),
            lambda: AnsCoder().encode_reverse([1, 2, 3], family, masked, [1.0] * 3), lambda: AnsCoder().decode(family, [0.0] * 3, masked),
            lambda: EncoderHuffmanTree(masked), lambda: QuantizedGaussian(-9, 9, masked[1], 1.0), lambda: AnsCoder().decode(Categorical(), [masked]),
        ):  # fmt: skip
            self.assertRaisesRegex(TypeError, "^expected numbers, got a masked array: ", call)

    def test_text_is_no_number(self) -> None:
        """Arrays of texts, objects and complex numbers are refused."""
        for wrong in (
            numpy.array(["1", "2"]),
            [numpy.str_("1"), numpy.str_("2")],
            numpy.array([None, 1.0]),
            numpy.array([1j]),
        ):
            for call in (
                lambda: Categorical(wrong), lambda: WeightTable(wrong), lambda: AnsCoder().decode(QuantizedGaussian(-9, 9), wrong, [1.0, 2.0]),
                lambda: AnsCoder().encode_reverse(wrong, WeightTable(WEIGHTS)),
            ):  # fmt: skip
                self.assertRaises(TypeError, call)
        self.assertRaises(TypeError, QuantizedGaussian, -9, 9, numpy.str_("1"), 2.0)

    def test_stores_in_another_byte_order(self) -> None:
        """Words of stores in another type or byte order are refused."""
        built = Store.build([TEN, TEN[::-1]], WeightTable(WEIGHTS))
        for kind in (">u4", "int32", "float32", "uint16"):
            with self.assertRaisesRegex(TypeError, "^expected a buffer of unsigned 32-bit words "):
                Store.from_parts(built.words.astype(kind), built.index, WeightTable(WEIGHTS))
        for words in (built.words, built.words.astype("<u4"), built.words.view("uint8"), built.words.tobytes()):
            self.assertEqual(Store.from_parts(words, built.index, WeightTable(WEIGHTS))[1].tolist(), TEN[::-1])

    def test_ranges_far_off(self) -> None:
        """Ranges far from 0 take arrays of each byte order."""
        for least in (1 << 61, (1 << 63) - 9, -(1 << 63), (1 << 61) - 1):
            model, symbols = QuantizedGaussian(least, least + 8, float(least), 3.0), [least, least + 8, least + 2]
            wanted = AnsCoder()
            wanted.encode_reverse(symbols, model)
            for kind in ("int64", ">i8", "uint64", ">u8"):
                if least > 0 or "u" not in kind:
                    coder = AnsCoder()
                    coder.encode_reverse(numpy.array(symbols, dtype=kind), model)
                    self.assertEqual(coder.pos(), wanted.pos())
                    self.assertEqual(coder.decode(model, 3).tolist(), symbols)
            self.assertRaises(TypeError, AnsCoder().encode_reverse, numpy.array([1.0]), model)

    def test_whole_counts(self) -> None:
        """Whole counts from arrays aren't rounded, and sums are exact."""
        for counts in ([2**60, 2**60 + 1, 2**60], [3, 0, 5], [2**62] * 40 + [2**62 + 1]):
            for kind in ("uint64", "int64", ">u8"):
                self.assertEqual(Categorical(numpy.array(counts, dtype=kind)).table(), Categorical(counts).table())
        dice = random.Random(4)
        for length in (1, 31, 33, 200):
            chances = [
                dice.choice((0.0, dice.random(), math.exp(-40 * dice.random()), 5e-324)) for _ in range(length)
            ] + [2.0 ** dice.randint(-1060, 1020)]
            expected = models.weights(models.counts(chances))
            for given in (chances, array("d", chances), numpy.array(chances), numpy.array([chances, chances])[::-1][0]):
                self.assertEqual(Categorical(given).table().tolist(), expected)

    def test_lists_of_whole_numbers(self) -> None:
        """Lists of numpy's whole numbers are counts, under both rules of promotion."""
        program = """
import numpy as np
from constriction.stream.model import Categorical
from constriction.stream.stack import AnsCoder
for given, counts in (
    ([100, np.int32(3)], [100, 3]), ([np.int64(1), np.int64(2)], [1, 2]), (list(np.bincount([0, 1, 1, 2])), [1, 2, 1]),
    ([np.array(3), np.array(1)], [3, 1]), ((np.uint8(200), 1 << 63), [200, 1 << 63]), ([np.array(0.75), np.array(0.25)], [0.75, 0.25]),
    ([np.int8(1), 0.5], [1.0, 0.5]), ([np.bool_(True), 3], [1.0, 3.0]),
):
    table = list(Categorical(counts).table())
    assert list(Categorical(given).table()) == table, (given, list(Categorical(given).table()), table)
    coder = AnsCoder()
    coder.encode_reverse([0, 1], Categorical(), [given, given])
    assert coder.decode(Categorical(), [counts, counts]).tolist() == [0, 1]
print("done")
"""
        for state in ("legacy", "weak"):
            environment = {**os.environ, "NPY_PROMOTION_STATE": state}
            ran = subprocess.run([sys.executable, "-c", program], env=environment, capture_output=True, text=True)
            self.assertEqual((ran.stdout, ran.stderr), ("done\n", ""))

    def test_rows_that_are_rounded_together(self) -> None:
        """Rows that are rounded together have the weights and errors of single rows."""
        dice = numpy.random.default_rng(6)
        for width, count in ((1, 3), (3, 40), (300, 500)):
            rows = dice.random((count, width)) ** dice.uniform(1, 300, (count, 1)) + 1e-300
            rows[:, 0] *= dice.choice([0.0, 1.0, 1e300, 5e-24], count)
            rows[:, -1] += 1e-9
            for kind in ("float64", "float32", ">f8"):
                some = numpy.minimum(rows, 1e38 if kind == "float32" else 1e300).astype(kind)
                together = [
                    list(row)
                    for weights, _, _ in Categorical().rows((some,))
                    for row in numpy.asarray(weights).reshape(-1, width).tolist()
                ]
                self.assertEqual(together, [list(Categorical(row).table()) for row in some.tolist()])
        for wrong in (-1.0, numpy.nan, numpy.inf):
            rows = numpy.full((4, 3), 0.25)
            rows[2, 1] = wrong
            with self.assertRaisesRegex(
                ValueError, "^expected a probability that is at least 0 and finite, got .* at place 1 in row 2$"
            ):
                AnsCoder().decode(Categorical(), rows)
        with self.assertRaisesRegex(ValueError, "^expected a probability above 0, got none in row 0$"):
            AnsCoder().decode(Categorical(), numpy.zeros((2, 3)))

    def test_rows_that_are_copied_together(self) -> None:
        """Rows that are copied together have the words of lists of rows."""
        dice = numpy.random.default_rng(8)
        for width, count in ((1, 3), (3, 40), (256, 700)):
            rows = dice.integers(1, 1 << 14, (count, width), dtype="int64")
            rows[:, -1] += (1 << 24) - rows.sum(axis=1)
            symbols, wanted = dice.integers(0, width, count), AnsCoder()
            wanted.encode_reverse(symbols, WeightTable(), rows.tolist())
            for kind in ("int64", "uint32", ">u4", "int32"):
                coder, some = AnsCoder(), rows.astype(kind)
                with mock.patch.object(WeightTable, "_row", side_effect=AssertionError("row by row")):
                    coder.encode_reverse(symbols, WeightTable(), some)
                    self.assertEqual(coder, wanted)
                    self.assertEqual(coder.decode(WeightTable(), some).tolist(), symbols.tolist())
                    self.assertTrue(coder.is_empty())
            for wrong in (-1, 1 << 32):
                rows[count - 1, 0] = wrong
                with self.assertRaisesRegex(errors.WrongWeightsError, f"got {wrong} at place 0 in row {count - 1}$"):
                    AnsCoder([5]).decode(WeightTable(), rows)
            rows[count - 1, 0] = 3
            with self.assertRaisesRegex(errors.WrongWeightsError, f" in row {count - 1}$"):
                AnsCoder([5]).decode(WeightTable(), rows)
        self.assertRaises(TypeError, AnsCoder([5]).decode, WeightTable(), numpy.ones((2, 2)))

    def test_one_symbol(self) -> None:
        """Single numbers of numpy are symbols and parameters."""
        family, coder, wanted = QuantizedGaussian(-9, 9), AnsCoder(), AnsCoder()
        for kind in (numpy.int64, numpy.int8, numpy.uint16, numpy.array):
            for mean, std in ((numpy.float32(0.5), numpy.float64(2.0)), (numpy.int32(1), numpy.array(2.5))):
                coder.encode_reverse(kind(3), family, mean, std)
                wanted.encode_reverse([3], family, [float(mean)], [float(std)])
                self.assertEqual(coder.pos(), wanted.pos())
        row = numpy.array([1 << 22, 1 << 22, 1 << 23])
        for kind in ("uint32", "int64", ">u4"):
            coder.encode_reverse(numpy.int64(2), WeightTable(), row.astype(kind))
            self.assertEqual((coder.decode(WeightTable(row.astype(kind))), coder.pos()), (2, wanted.pos()))
        self.assertIs(type(coder.decode(family, 0.5, 2.0)), int)

    def test_copies(self) -> None:
        coder = AnsCoder(numpy.array(WORDS, dtype=numpy.uint32))
        for twin in (copy.copy(coder), copy.deepcopy(coder), pickle.loads(pickle.dumps(coder))):
            self.assertEqual(twin.decode(WeightTable(WEIGHTS), 10).tolist(), TEN)
        model = WeightTable(numpy.array(WEIGHTS))
        self.assertEqual(list(pickle.loads(pickle.dumps(model)).table()), WEIGHTS)

    def test_answers_of_other_coders(self) -> None:
        """The chain coder and the bit coders return arrays."""
        chain = ChainCoder(numpy.array([1, 2, 3, 4, 5, 6], dtype="uint32"))
        symbols = chain.decode(Uniform(5), 3)
        chain.encode_reverse(symbols, Uniform(5))
        self.assertEqual(numpy.concatenate(chain.get_data()).tolist(), [1, 2, 3, 4, 5, 6])
        queue, stack = QueueEncoder(), StackCoder()
        queue.encode(numpy.arange(100, dtype="int16"), ExpGolomb())
        stack.encode_reverse(numpy.arange(100, dtype="int16"), ExpGolomb())
        for decoder in (QueueDecoder(queue.get_compressed()[0]), StackCoder(stack.get_compressed()[0])):
            found = decoder.decode(ExpGolomb(), 100)
            self.assertEqual((type(found), found.tolist()), (numpy.ndarray, list(range(100))))


if __name__ == "__main__":
    unittest.main()
