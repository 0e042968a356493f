"""Single numbers of numpy that ``float`` takes and that aren't real numbers: no parameter may lose a part of them."""

from __future__ import annotations

import unittest
from typing import Any

from constriction.stream.model import Bernoulli, Categorical, QuantizedGaussian, QuantizedMixture
from constriction.stream.stack import AnsCoder, AnsCoders

numpy: Any
try:
    import numpy
except ImportError:
    raise unittest.SkipTest("numpy is not there") from None


class RealNumbers(unittest.TestCase):
    """Complex numbers, times, and texts in arrays without dimensions."""

    def test_other_numbers(self) -> None:
        """A model or a call with such a parameter raises TypeError, and no coder changes."""
        coder, family = AnsCoder([1, 2, 3]), QuantizedGaussian(-9, 9)
        coders, before = AnsCoders(2), coder.clone()
        wrong = [kind(2) for kind in (numpy.complex64, numpy.complex128)]
        for bad in (*wrong, *map(numpy.array, wrong), numpy.timedelta64(2), numpy.array("2.0"), numpy.array(b"2.0")):
            calls: list[Any] = [
                lambda: coder.encode_reverse(1, family, bad, 2.0), lambda: coder.encode_reverse(1, family, 0.5, bad), lambda: coder.decode(family, 0.5, bad),
                lambda: coder.encode_reverse([1, 2], family, [0.5, bad], [1.0, 2.0]), lambda: coder.decode(family, bad, [1.0, 2.0]), lambda: QuantizedGaussian(-9, 9, bad, 2.0),
                lambda: QuantizedGaussian(-9, 9, 0.5, bad), lambda: Bernoulli(bad), lambda: Categorical([0.5, bad]), lambda: coders.encode_reverse([1, 2], family, bad, 2.0),
                lambda: coder.decode(QuantizedMixture(family), [0.5, bad], [0.5, 0.5], [1.0, 1.0]), lambda: coder.decode(Categorical(), [0.5, bad]),
            ]  # fmt: skip
            for place, call in enumerate(calls):
                with self.assertRaises(TypeError, msg=(bad, place)):
                    call()
                self.assertEqual(coder, before)
                self.assertTrue(coders.is_empty())

    def test_arrays_of_one(self) -> None:
        """Arrays of one such number, and masked arrays of one, are refused for a single symbol as in a list."""
        coder, family = AnsCoder([1, 2, 3]), QuantizedGaussian(-9, 9)
        mixture, before, good = QuantizedMixture(family), coder.clone(), numpy.ones(1)
        wrong = [numpy.array([2], kind) for kind in ("m8[ns]", "M8[ns]", "complex64")]
        wrong += [numpy.array([(2.0,)], [("a", "f8")]), numpy.ma.array([2.0]), numpy.ma.array([2.0], mask=[True])]
        for bad in (*wrong, numpy.ma.masked, numpy.ma.array(2.0)):
            calls: list[Any] = [
                lambda: coder.encode_reverse(1, family, bad, 2.0), lambda: coder.encode_reverse(1, family, good, bad),
                lambda: coder.decode(family, bad, 2.0), lambda: coder.decode(family, good, bad),
                lambda: coder.encode_reverse(1, mixture, bad, good, good), lambda: coder.encode_reverse(1, mixture, good, bad, good),
                lambda: coder.decode(mixture, good, good, bad), lambda: coder.decode(mixture, good, bad, [1.0]),
            ]  # fmt: skip
            for place, call in enumerate(calls):
                with self.assertRaises(TypeError, msg=(bad, place)):
                    call()
                self.assertEqual(coder, before)


if __name__ == "__main__":
    unittest.main()
