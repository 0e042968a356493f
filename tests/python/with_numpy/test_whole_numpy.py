"""Coders as wholes, as in tests/python/test_whole.py, with arrays of numpy."""

from __future__ import annotations

import sys
import unittest
from pathlib import Path
from typing import Any
from unittest import mock

np: Any
try:
    import numpy as np
except ImportError:
    raise unittest.SkipTest("numpy is not there") from None

sys.path.insert(0, str(Path(__file__).resolve().parents[1]))

import test_whole as of
import test_whole_lanes as of_lanes


def table(numbers: Any) -> Any:
    """Returns an array, or a list if these are rows of several widths."""
    widths = {len(it) for it in numbers if isinstance(it, list)}
    return numbers if len(widths) > 1 else np.array(numbers)


class WithNumpy(unittest.TestCase):
    """The random calls, with numpy."""

    def ready(self, whole: of.Whole, calls: int) -> of.Whole:
        """Returns a test of random calls after its setup."""
        whole.setUp()
        self.addCleanup(whole.doCleanups)
        whole.calls = calls
        return whole

    def test_random_calls_of_batches(self) -> None:
        """Random calls with arrays of shape (n,) and (n, T)."""
        whole = self.ready(of_lanes.WholeLanes("test_random_calls"), 2000)
        forms = (list, np.array, lambda it: np.array(it, dtype=">i4"), lambda it: np.array(it).astype("int16"))
        with mock.patch.multiple(of_lanes.Lanes, forms=forms, forms_of_parameters=(list, np.array, np.array)):
            whole.test_random_calls()

    def test_random_calls(self) -> None:
        """Random calls with arrays."""
        whole = self.ready(of.Whole("test_random_calls"), 6000)
        forms = (
            *of.Case.forms, np.array, lambda it: np.array(it, dtype=">i4"), lambda it: np.array(it, dtype="int64").reshape(1, -1),
            lambda it: np.array(of.narrow(it)),
        )  # fmt: skip
        with mock.patch.multiple(
            of.Case, forms=forms, forms_of_parameters=(*of.Case.forms_of_parameters, table, table)
        ):
            whole.test_random_calls()


if __name__ == "__main__":
    unittest.main()
