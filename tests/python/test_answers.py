"""Results of decodes and exports: lists of numbers that equal lists, and single symbols as ints."""

from __future__ import annotations

import copy
import math
import pickle
import random
import struct
import sys
import unittest
from array import array
from typing import Any
from unittest import mock

import definitions as by
from constriction import _library, errors
from constriction._buffers import Numbers
from constriction.stream.chain import ChainCoder
from constriction.stream.model import Bernoulli, Categorical, QuantizedGaussian, QuantizedMixture, Uniform, WeightTable
from constriction.stream.queue import RangeDecoder, RangeEncoder
from constriction.stream.stack import AnsCoder


class WithoutNumpy(unittest.TestCase):
    """Answers are lists of numbers if numpy can't be imported."""

    def setUp(self) -> None:
        patch = mock.patch.dict(sys.modules, numpy=None)
        patch.start()
        self.addCleanup(patch.stop)

    def test_copies_and_parts(self) -> None:
        """Slices, copies, pickles, sums and multiples of an answer are equal to those of a list."""
        coder = AnsCoder()
        coder.encode_reverse([3, 1, 4, 1, 5], Uniform(9))
        found: Any = coder.decode(Uniform(9), 5)
        self.assertEqual(type(found), Numbers)
        for part, wanted in (
            (found[:], [3, 1, 4, 1, 5]), (found[1:3], [1, 4]), (found[::-2], [5, 4, 3]), (found[9:], []), (copy.copy(found), [3, 1, 4, 1, 5]),
            (copy.deepcopy(found), [3, 1, 4, 1, 5]), (copy.deepcopy([found])[0], [3, 1, 4, 1, 5]), (pickle.loads(pickle.dumps(found)), [3, 1, 4, 1, 5]),
            (found + found[:1], [3, 1, 4, 1, 5, 3]), (found[:2] * 2, [3, 1, 3, 1]), (2 * found[:2], [3, 1, 3, 1]),
        ):  # fmt: skip
            self.assertEqual(part, wanted)
            self.assertEqual(part, tuple(wanted))
            self.assertNotEqual(part, [*wanted, 1])
            self.assertEqual((type(part), part.typecode), (Numbers, "q"))
        part = found[:]
        part[0] = 8
        self.assertEqual((found[0], found[-1], part[0]), (3, 5, 8))
        self.assertEqual(coder.get_compressed()[:], [])


class Single(unittest.TestCase):
    """One symbol decodes to an int, for all forms of its parameters."""

    def test_one_row(self) -> None:
        """One row of weights or probabilities, in any form, decodes to an int."""
        rows: list[Any] = [
            [0.1, 0.6, 0.3],
            (0.1, 0.6, 0.3),
            array("d", [0.1, 0.6, 0.3]),
            [1, 6, 3],
            memoryview(array("d", [0.1, 0.6, 0.3])),
        ]
        weights: list[Any] = [
            [1 << 22, 1 << 23, 1 << 22],
            (1 << 22, 1 << 23, 1 << 22),
            array("I", [1 << 22, 1 << 23, 1 << 22]),
        ]
        for model, some in ((Categorical(), rows), (WeightTable(), weights)):
            for row in some:
                for coder in (AnsCoder([5, 6, 7]), RangeDecoder([5, 6, 7]), ChainCoder(range(1, 9))):
                    other = coder.clone()
                    for form in (row, [row]):
                        wanted = other.decode(model, [row]).tolist()
                        found: Any = coder.decode(model, form)
                        self.assertEqual([found] if form is row else found.tolist(), wanted)
                        self.assertEqual(type(found) is int, form is row)
                        self.assertEqual(coder, other)
        self.assertEqual(len(AnsCoder([5]).decode(Categorical(), [])), 0)

    def test_views_of_several_dimensions(self) -> None:
        """Symbols and parameters in such buffers are taken as arrays are. Without numpy no answer has such a shape."""
        view: Any = memoryview(array("d", [0.5, 1.5, -2.5, 3.5]).tobytes()).cast("B").cast("d", (2, 2))
        symbols = memoryview(array("q", [0, 1, -2, 3]).tobytes()).cast("B").cast("q", (2, 2))
        family, coder, alone = QuantizedGaussian(-9, 9), AnsCoder(), AnsCoder()
        coder.encode_reverse(symbols, family, view, 2.0)
        alone.encode_reverse([0, 1, -2, 3], family, [0.5, 1.5, -2.5, 3.5], [2.0] * 4)
        self.assertEqual(coder, alone)
        calls: list[Any] = [
            lambda: coder.decode(family, view, 2.0),
            lambda: coder.decode(family, view, view.tolist()[0]),
        ]
        for call in calls:
            before = coder.clone()
            try:
                self.assertEqual(call().shape, (2, 2))
            except (TypeError, ValueError):
                self.assertEqual(coder, before)

    def test_other_parameters(self) -> None:
        """One set of parameters, in any form, decodes to an int."""
        mixture, weights, means, stds = (
            QuantizedMixture(QuantizedGaussian(-9, 9)),
            [0.25, 0.75],
            [1.0, -1.0],
            [2.0, 0.5],
        )
        for forms in (list, tuple, iter, lambda it: (x for x in it), lambda it: array("d", it)):
            coder = AnsCoder([5, 6, 7])
            other = coder.clone()
            found: Any = coder.decode(mixture, forms(weights), forms(means), forms(stds))
            self.assertEqual((type(found), [found]), (int, other.decode(mixture, [weights], [means], [stds]).tolist()))
            coder.encode_reverse(found, mixture, forms(weights), forms(means), forms(stds))
            self.assertEqual(coder, AnsCoder([5, 6, 7]))
        self.assertIs(type(AnsCoder([5]).decode(Bernoulli(), 0.5)), int)
        self.assertIs(type(AnsCoder([5]).decode(QuantizedGaussian(-9, 9), 0.5, 2.0)), int)
        self.assertEqual(len(AnsCoder([5]).decode(Bernoulli(), [0.5])), 1)


class QuickWays(unittest.TestCase):
    """Calls of one symbol with rows don't use the code for lists, and have the same words, symbols and errors."""

    def test_beside_lists(self) -> None:
        """Calls of one symbol have the same words and symbols as calls with lists of one symbol."""
        slow = mock.patch("constriction._coder.Coder._changed", side_effect=AssertionError("the way of lists"))
        dice, mixture, family = random.Random(5), QuantizedMixture(QuantizedGaussian(-9, 9)), QuantizedGaussian(-9, 9)
        far = QuantizedMixture(QuantizedGaussian(1 << 40, (1 << 40) + 6))
        for _ in range(60):
            shares = [
                dice.choice((0.0, 1e-9, 0.5, dice.random() * 10 ** dice.randint(-30, 30)))
                for _ in range(dice.choice((2, 5, 16)))
            ] + [0.25]
            weights = by.random_weights(dice, 3)
            components = (
                [dice.random() / 2 for _ in range(3)],
                [dice.uniform(-12, 12) for _ in range(3)],
                [dice.uniform(0.01, 70) for _ in range(3)],
            )
            for model, given, symbol in (
                (Categorical(), (shares,), 0), (WeightTable(), (weights,), by.random_symbol(dice, weights)), (mixture, components, 3),
                (far, (components[0], [2.0**40] * 3, components[2]), (1 << 40) + 2), (family, ([components[1][0]], [components[2][0]]), -4),
            ):  # fmt: skip
                for coder in (AnsCoder([5, 6]), RangeEncoder(), ChainCoder(range(1, 20))):
                    coder.decode(Uniform(3), 5) if isinstance(coder, ChainCoder) else None
                    other, name = coder.clone(), "encode" if isinstance(coder, RangeEncoder) else "encode_reverse"
                    with slow:
                        getattr(coder, name)(symbol, model, *given)
                    getattr(other, name)([symbol], model, *(given if model is family else ([it] for it in given)))
                    self.assertEqual(coder._plain(coder._state), other._plain(other._state))
                    if isinstance(coder, RangeEncoder):
                        coder, other = coder.get_decoder(), other.get_decoder()
                    with slow:
                        found: Any = coder.decode(model, *given)
                    self.assertEqual(
                        found if model is family else [found],
                        other.decode(model, *(given if model is family else ([it] for it in given))),
                    )
                    self.assertEqual([found] if model is not family else found, [symbol])

    def test_refusals(self) -> None:
        """Invalid parameters of one symbol are refused, and the coder stays unchanged."""
        mixture, nan, inf = QuantizedMixture(QuantizedGaussian(-9, 9)), math.nan, math.inf
        half, zeros, ones = [0.5, 0.5], [0.0, 0.0], [1.0, 1.0]
        for weights, means, stds in (
            ([nan, 0.5], zeros, ones), ([0.5, nan], zeros, ones), ([-0.5, 1.0], zeros, ones), ([1.5, 1.5], zeros, ones), (zeros, zeros, ones),
            (half, [0.0, nan], ones), (half, [inf, 0.0], ones), (half, zeros, [1.0, nan]), (half, zeros, [0.0, 1.0]), (half, zeros, [65536.0, 1.0]),
            ([0.5], zeros, ones), (half, [0.0], ones), (half, zeros, [1.0] * 3), ([2.0, 0.0], zeros, ones),
        ):  # fmt: skip
            coder = AnsCoder([5, 6])
            self.assertRaises(ValueError, coder.decode, mixture, weights, means, stds)
            self.assertRaises(ValueError, coder.encode_reverse, 1, mixture, weights, means, stds)
            self.assertEqual(coder, AnsCoder([5, 6]))
        self.assertRaises(errors.ImpossibleSymbolError, AnsCoder().encode_reverse, 10, mixture, half, zeros, ones)
        for wrong in ([nan, 0.5], [0.5, nan], [-0.5, 1.0], [0.0, 0.0], [inf, 1.0], [1.7e308, 1.7e308, -1.0]):
            self.assertRaises(ValueError, AnsCoder([5]).decode, Categorical(), wrong)
        self.assertEqual(list(Categorical([1.7e308, 1.7e308]).table()), [1 << 23] * 2)
        self.assertEqual(list(Categorical([5e-324, 5e-324]).table()), [1 << 23] * 2)


class OneForAll(unittest.TestCase):
    """A single parameter, or a list of one, stands for all."""

    def test_parameters(self) -> None:
        """Single parameters have the same words as lists that repeat them. Other lengths are refused."""
        symbols, means, stds = [3, -2, 0, 5], [2.5, -1.0, 0.25, 4.0], [2.0] * 4
        family, mixture, weights = (
            QuantizedGaussian(-9, 9),
            QuantizedMixture(QuantizedGaussian(-9, 9)),
            [1 << 22, 1 << 23, 1 << 22],
        )
        two = [[0.25, 0.75]] * 4
        cases: list[tuple[Any, Any, tuple[Any, ...], list[tuple[Any, ...]]]] = [
            (family, symbols, (means, stds), [(means, 2.0), (means, [2.0]), (means, array("d", [2.0])), (tuple(means), 2)]),
            (family, symbols, ([0.5] * 4, stds), [(0.5, 2.0), ([0.5], 2.0), (0.5, [2.0]), ([0.5], [2.0]), (0.5, stds)]),
            (Bernoulli(), [1, 0, 1], ([0.25] * 3,), [(0.25,), ([0.25],)]),
            (WeightTable(), [2, 0, 1], ([weights] * 3,), [(weights,), ([weights],), (array("I", weights),)]),
            (Categorical(), [2, 0, 1], ([[1, 2, 1]] * 3,), [([1, 2, 1],), ([[1, 2, 1]],)]),
            (mixture, symbols, (two, [[it, -it] for it in means], [[2.0, 3.0]] * 4), [
                (two[0], [[it, -it] for it in means], [2.0, 3.0]), (two[:1], [[it, -it] for it in means], [[2.0, 3.0]]),
            ]),
        ]  # fmt: skip
        for model, some, whole, forms in cases:
            wanted = AnsCoder([5, 6])
            wanted.encode_reverse(some, model, *whole)
            for form in forms:
                coder = AnsCoder([5, 6])
                coder.encode_reverse(some, model, *form)
                self.assertEqual(coder, wanted)
                if len(form) > 1 and any(hasattr(it, "__len__") and len(it) == len(some) for it in form):
                    found: Any = coder.decode(model, *form)
                    self.assertEqual(list(found), some)
        for wrong in (([0.0] * 3, [1.0] * 4), ([0.0] * 2, 1.0), ([0.0] * 5, [1.0])):
            self.assertRaises(ValueError, AnsCoder().encode_reverse, symbols, family, *wrong)
        self.assertRaises(ValueError, AnsCoder().encode_reverse, [0], family, means, stds)
        self.assertRaises(TypeError, AnsCoder().decode, Uniform(3), amt=(2.5,))
        self.assertEqual(len(AnsCoder([5, 6]).decode(Uniform(3), amt=(7,))), 7)


class Bytes(unittest.TestCase):
    """Words as bytes."""

    def test_there_and_back(self) -> None:
        """`to_bytes` has the words in little-endian order, and `from_bytes` reads them from any buffer of bytes."""
        model = Uniform(300)
        for count in (0, 1, 5, 40):
            symbols = [i * 7 % 300 for i in range(count)]
            coder, encoder = AnsCoder(), RangeEncoder()
            coder.encode_reverse(symbols, model), encoder.encode(symbols, model)
            for it in (coder, encoder):
                words = list(it.get_compressed())
                self.assertEqual(it.to_bytes(), b"".join(word.to_bytes(4, "little") for word in words))
            self.assertEqual(
                encoder.to_bytes(self_delimiting=True),
                struct.pack(f"<{len(encoder.get_compressed(True))}I", *encoder.get_compressed(True)),
            )
            for kind in (bytes, bytearray, memoryview, lambda it: array("B", it)):
                self.assertEqual(list(AnsCoder.from_bytes(kind(coder.to_bytes())).decode(model, count)), symbols)
                self.assertEqual(list(RangeDecoder.from_bytes(kind(encoder.to_bytes())).decode(model, count)), symbols)
        words = [5, 6, 0, 7, 0]
        sealed = AnsCoder(words, seal=True)
        self.assertEqual(sealed.to_bytes(unseal=True), struct.pack("<5I", *words))
        self.assertEqual(AnsCoder.from_bytes(sealed.to_bytes(unseal=True), seal=True), sealed)

    def test_refusals(self) -> None:
        """Bytes that aren't whole words, and values that aren't bytes, are refused."""
        for make in (AnsCoder.from_bytes, RangeDecoder.from_bytes):
            for size in (1, 2, 3, 5):
                self.assertRaisesRegex(
                    errors.InvalidDataError, f"^expected 4 bytes for each word, got {size} bytes$", make, bytes(size)
                )
            for wrong in ([1, 2], "abcd", 4, None):
                self.assertRaisesRegex(TypeError, f"^expected bytes, got {type(wrong).__name__}$", make, wrong)
        self.assertRaises(errors.InvalidDataError, AnsCoder.from_bytes, bytes(4))

    def test_a_library_of_another_version(self) -> None:
        """A library of another version is refused."""
        for version in ("0.6.0", "0.5.1", "1.5.0"):
            with mock.patch.object(_library, "VERSION", version):
                self.assertRaisesRegex(
                    ImportError,
                    f"^expected a library of version {version}, as this package, got version 0.5.0 at /",
                    _library._load,
                )


if __name__ == "__main__":
    unittest.main()
