"""Floats that are rounded by a sum have the units that are computed one by one, or aren't taken."""

from __future__ import annotations

import sys
import unittest
from array import array
from pathlib import Path
from typing import Any

np: Any
try:
    import numpy as np
except ImportError:
    raise unittest.SkipTest("numpy is not there") from None

sys.path.insert(0, str(Path(__file__).resolve().parents[1]))

from constriction import _buffers
from constriction._rounded import Rounded
from constriction._units import UNITS_OF_ONE, locations_of, scales_of

_buffers.numpy_module()
#: Floats at which the rule changes: no unit, half a unit, limits of both parameters, and what isn't finite.
EDGES = (
    0.0, -0.0, 5e-324, -5e-324, 2.0**-17, 3 * 2.0**-17, -(2.0**-17), 2.0**-18, 32768.0, -32768.0, 65536.0, -65536.0, 2.0**35, -(2.0**35),
    1e308, -1e308, np.inf, -np.inf, np.nan, -np.nan,
)  # fmt: skip


class RoundedFloats(unittest.TestCase):
    """``Rounded`` beside the functions for lists."""

    def floats(self, dice: Any, count: int, kind: int) -> Any:
        """Returns floats near halves of units, near limits, of any bits, or of 32 bits."""
        if kind == 0:
            halves = dice.integers(-(2**48), 2**48, count) / 2.0**17
            return np.where(
                dice.random(count) < 0.5, halves, np.nextafter(halves, dice.choice([-np.inf, np.inf], count))
            )
        if kind == 1:
            near = np.array(EDGES)[dice.integers(len(EDGES), size=count)]
            return near + dice.integers(-3, 4, count) / 2.0**17
        if kind == 2:
            return dice.integers(-(2**63), 2**63 - 1, count).view("float64")
        if kind == 3:
            return dice.integers(0, 2**32, count).astype("uint32").view("float32")
        return dice.normal(0, 10.0 ** dice.uniform(-8, 6, count))

    def test_as_one_by_one(self) -> None:
        """Floats of all kinds, alone and together."""
        dice, taken = np.random.default_rng(11), 0
        with np.errstate(all="ignore"):
            for count in (1, 1, 1, 5):
                locations, scales = np.empty(count, "int64"), np.empty(count, "uint32")
                rounded = Rounded((UNITS_OF_ONE, UNITS_OF_ONE), (locations, scales))
                for step in range(4000):
                    given = [self.floats(dice, count, (step + shift) % 5) for shift in (0, step // 5)]
                    given[1] = abs(given[1]) if step % 3 else given[1]
                    if step % 7 == 0:
                        given[step % 2] = float(given[step % 2][0])
                    if not rounded.take(given):
                        continue
                    taken += 1
                    each = [np.broadcast_to(it, count).astype("float64").tolist() for it in given]
                    self.assertEqual(locations.tolist(), locations_of("mean", array("d", each[0])).tolist())
                    self.assertEqual(scales.tolist(), scales_of("deviation", array("d", each[1])).tolist())
        self.assertGreater(taken, 1000)

    def test_limits(self) -> None:
        """The least and the greatest floats that are taken."""
        locations, scales = np.empty(1, "int64"), np.empty(1, "uint32")
        rounded, unit = Rounded((UNITS_OF_ONE, UNITS_OF_ONE), (locations, scales)), 1 / UNITS_OF_ONE
        for mean, std, good in (
            (-32768.0, unit, True), (32768.0 - 2 * unit, 65536.0 - unit, True), (32768.0, 1.0, False), (-32768.0 - unit, 1.0, False),
            (0.0, unit / 2, False), (0.0, 65536.0 - unit / 2, False), (0.0, -1.0, False), (np.nan, 1.0, False), (0.0, np.inf, False), (-np.inf, 1.0, False),
        ):  # fmt: skip
            self.assertEqual(rounded.take((np.array([mean]), np.array([std]))), good, (mean, std))
            if good:
                self.assertEqual((locations[0], scales[0]), (mean * UNITS_OF_ONE, std * UNITS_OF_ONE))


if __name__ == "__main__":
    unittest.main()
