"""Decodes with parameters for each symbol have the same symbols as with rows of weights, but make no row.

Models of floats get the coder's quantile. Models in whole numbers are C functions.
"""

from __future__ import annotations

import random
import time
import unittest
from array import array
from unittest import mock

from constriction import errors
from constriction.stream.chain import ChainCoder

from constriction.stream.model import (
    Binomial, Categorical, Model, QuantizedCauchy, QuantizedGaussian, WeightTable,
)  # fmt: skip
from constriction.stream.queue import RangeDecoder, RangeEncoder
from constriction.stream.stack import AnsCoder
from classes_of_families import KINDS


class Quantiles(unittest.TestCase):
    """Decodes that ask models for quantiles."""

    def test_the_same_symbols_as_by_rows(self) -> None:
        """The symbols are the same as with rows of weights."""
        dice = random.Random(13)
        words = array("I", (dice.randrange(1, 1 << 31) for _ in range(500)))
        families: list[Model] = [
            *(kind(least, 50) for kind in KINDS.values() for least in (-50, -5, -500)), QuantizedCauchy(0, 9),
            QuantizedGaussian(7, 7), Binomial(12), QuantizedGaussian(-9, 9, 0.5),
        ]  # fmt: skip
        for family in families:
            given: tuple[list[float], ...] = ([dice.random() for _ in range(300)],)
            if len(family.missing) == 2:
                given = [dice.gauss(0, 9) for _ in range(300)], [dice.uniform(0.01, 30) for _ in range(300)]
            rows = [family._weights(it) for it in zip(*given)]
            encoder = RangeEncoder()
            encoder.encode([family.first + dice.randrange(len(row)) for row in rows], family, *given)
            for make in (AnsCoder, RangeDecoder, ChainCoder):
                data = encoder.get_compressed() if make is RangeDecoder else words
                one, other = make(data), make(data)
                wanted = [it + family.first for it in other.decode(WeightTable(), rows)]
                with mock.patch.object(type(family), "_weights", side_effect=AssertionError("a row was made")):
                    self.assertEqual(one.decode(family, *given), wanted)
                self.assertEqual(one._plain(one._state), other._plain(other._state))

    def test_refusals(self) -> None:
        """After an error, a decoder is unchanged."""
        family, given = QuantizedGaussian(-9, 9), ([0.0] * 100, [1.0] * 100)
        chain = ChainCoder([1, 2, 3, 4, 5])
        before = chain.get_remainders()
        with self.assertRaisesRegex(errors.OutOfDataError, r"^Out of compressed data\.$"):
            chain.decode(family, *given)
        self.assertEqual(chain.get_remainders(), before)
        decoder = RangeDecoder([(1 << 32) - 1] * 4)
        before = decoder._state.numbers
        with self.assertRaises(errors.InvalidDataError):
            decoder.decode(Categorical(), [[1.0, 1.0]] * 100)
        self.assertEqual(decoder._state.numbers, before)

    def test_wide_models_are_no_slower(self) -> None:
        """A decode doesn't look at all symbols."""

        def seconds(width: int) -> float:
            """Returns the time of a decode with a model of this width."""
            family, coder = QuantizedCauchy(-width, width), AnsCoder(range(1, 1001))
            begin = time.process_time()
            coder.decode(family, [0.5] * 1000, [9.0] * 1000)
            return time.process_time() - begin

        narrow = min(seconds(50) for _ in range(3))
        self.assertLess(min(seconds(1000) for _ in range(3)), 4 * narrow)  # By rows it would be 13 times as much.


if __name__ == "__main__":
    unittest.main()
