"""Many stack coders with arrays of numpy: symbols and parameters of shape (n,) and (n, T)."""

from __future__ import annotations

import unittest
from typing import Any

from constriction import errors
from constriction.stream.model import Categorical, QuantizedCauchy, QuantizedGaussian, QuantizedMixture, Uniform
from constriction.stream.stack import AnsCoder, AnsCoders, SmallAnsCoders

numpy: Any
try:
    import numpy
except ImportError:
    raise unittest.SkipTest("numpy is not there") from None


class Lanes(unittest.TestCase):
    """Batches as arrays."""

    def test_shapes(self) -> None:
        """Answers have the shape of the parameters, which broadcast."""
        dice = numpy.random.default_rng(3)
        for count, time in ((1, 1), (3, 4), (64, 7)):
            for family in (QuantizedGaussian(-50, 50), QuantizedCauchy(-50, 50)):
                means = dice.normal(0, 9, (count, time))
                symbols = numpy.clip(numpy.rint(means), -50, 50).astype("int32")
                coders, alone = AnsCoders(count), AnsCoder()
                coders.encode_reverse(symbols, family, means, 2.5)
                coders.encode_reverse(symbols[:, 0], family, means[:, 0], numpy.full(count, 1.5))
                alone.encode_reverse(symbols[-1], family, means[-1], numpy.full(time, 2.5))
                alone.encode_reverse(int(symbols[-1, 0]), family, float(means[-1, 0]), 1.5)
                self.assertEqual(coders[count - 1], alone)
                found = coders.decode(family, means[:, 0], 1.5)
                self.assertEqual((found.shape, found.tolist()), ((count,), symbols[:, 0].tolist()))
                found = coders.decode(family, means, numpy.full((count, 1), 2.5))
                self.assertEqual((found.shape, found.tolist()), ((count, time), symbols.tolist()))
                self.assertTrue(coders.is_empty())

    def test_rows(self) -> None:
        """A row of probabilities for each symbol, of shape (n, T, K) or (n, K)."""
        dice = numpy.random.default_rng(4)
        rows, symbols = dice.random((5, 3, 6)), dice.integers(0, 6, (5, 3))
        for model in (Categorical(), Categorical(perfect=False)):
            coders = AnsCoders(5)
            coders.encode_reverse(symbols, model, rows)
            coders.encode_reverse(symbols[:, 1], model, rows[:, 1])
            self.assertEqual(coders.decode(model, rows[:, 1]).tolist(), symbols[:, 1].tolist())
            self.assertEqual(coders.decode(model, rows).tolist(), symbols.tolist())
            self.assertTrue(coders.is_empty())

    def test_arrays_beside_lists(self) -> None:
        """Some parameters are arrays, and others are lists of rows."""
        dice, family = numpy.random.default_rng(5), QuantizedGaussian(-50, 50)
        means, stds = dice.normal(0, 9, (4, 3)), dice.uniform(0.5, 9, (4, 3))
        symbols = numpy.rint(means).astype("int64")
        wanted, coders = AnsCoders(4), AnsCoders(4)
        wanted.encode_reverse(symbols, family, means, stds)
        for given in ((means, stds.tolist()), (means.tolist(), stds), (means.tolist(), stds.tolist())):
            for numbers in (symbols, symbols.tolist()):
                coders.encode_reverse(numbers, family, *given)
                self.assertEqual(coders, wanted)
                self.assertEqual(coders.decode(family, *given).tolist(), symbols.tolist())
        coders.encode_reverse(symbols.tolist(), family, means.tolist(), stds[:, :1])
        self.assertEqual(coders.decode(family, means.tolist(), stds[:, :1]).tolist(), symbols.tolist())
        mixture, weights = QuantizedMixture(family), numpy.full((4, 3, 2), 0.5)
        rows = numpy.stack([means, -means], axis=2)
        coders.encode_reverse(symbols, mixture, weights.tolist(), rows, numpy.full((4, 3, 2), 2.5))
        self.assertEqual(coders.decode(mixture, weights, rows.tolist(), numpy.full(2, 2.5)).tolist(), symbols.tolist())
        self.assertTrue(coders.is_empty())

    def test_types_of_answers(self) -> None:
        """``dtype`` and ``out`` choose the type of the answer. A symbol that doesn't fit is refused."""
        family, symbols = QuantizedGaussian(-200, 300), numpy.array([[-3, 7], [100, 0], [5, 200]])
        for make in (AnsCoders, SmallAnsCoders):
            coders = make(3)
            coders.encode_reverse(symbols, family, 0.0, 90.0)
            coders.encode_reverse(symbols[:, 0], family, symbols[:, 0] * 1.0, 2.0)
            coders.encode_reverse(abs(symbols), Uniform(300))
            before = coders.clone()
            for wrong, text in (
                ({"dtype": "int8"}, "that fit int8, got 200"), ({"dtype": "float64"}, "an integer type, got float64"), ({"out": numpy.zeros(6, int)}, "of shape"),
                ({"out": numpy.zeros((3, 2))}, "got float64"), ({"out": [0]}, "got list"), ({"dtype": "int64", "out": numpy.zeros((3, 2), int)}, "got both"),
            ):  # fmt: skip
                with self.assertRaisesRegex((TypeError, ValueError), text):
                    coders.decode(Uniform(300), amt=2, **wrong)
                self.assertEqual(coders, before)
            found: Any = coders.decode(Uniform(300), amt=2, dtype="uint8")
            self.assertEqual((found.dtype, found.tolist()), ("uint8", abs(symbols).tolist()))
            out = numpy.zeros(6, "int16")[::2]
            self.assertIs(coders.decode(family, symbols[:, 0] * 1.0, 2.0, out=out), out)
            self.assertEqual(out.tolist(), symbols[:, 0].tolist())
            found = coders.decode(family, numpy.zeros((3, 2)), 90.0, dtype=">i4")
            self.assertEqual((found.dtype, found.tolist()), (numpy.dtype(">i4"), symbols.tolist()))
            self.assertTrue(coders.is_empty())

    def test_refusals(self) -> None:
        """Arrays of a wrong shape, and an impossible symbol, change no coder."""
        coders, family = AnsCoders(4), QuantizedGaussian(-9, 9, 0.0, 3.0)
        coders.encode_reverse(numpy.zeros((4, 5), int), family)
        before = coders.clone()
        for shape in ((5,), (3, 4), (4, 2, 2), ()):
            with self.assertRaises((errors.WrongLengthError, TypeError)):
                coders.encode_reverse(numpy.zeros(shape, int), family)
        symbols = numpy.zeros((4, 5), int)
        symbols[2, 3] = 10
        with self.assertRaises(errors.ImpossibleSymbolError) as raised:
            coders.encode_reverse(symbols, family)
        self.assertEqual((raised.exception.symbol, raised.exception.place, raised.exception.lane), (10, 3, 2))
        self.assertEqual(coders, before)
        self.assertEqual(coders.decode(family, amt=5).tolist(), [[0] * 5] * 4)


if __name__ == "__main__":
    unittest.main()
