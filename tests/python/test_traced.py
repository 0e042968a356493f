"""Calls that an exception of a trace function ends at each of their lines. The coder stays whole, and takes further calls."""

from __future__ import annotations

import sys
import unittest
from collections.abc import Callable
from typing import Any

from constriction.stream.model import QuantizedGaussian, Uniform, WeightTable
from constriction.stream.queue import RangeEncoder
from constriction.stream.stack import AnsCoder, AnsCoders
from test_whole import Interrupt, twin_of

TABLE, FAMILY = Uniform(9), QuantizedGaussian(-9, 9)


def traced(call: Callable[[], Any], place: int) -> None:
    """Makes the call, and raises an exception at the line, call or return with this number."""
    seen = 0

    def trace(*_: Any) -> Any:
        nonlocal seen
        seen += 1
        if seen == place:
            raise Interrupt
        return trace

    before = sys.gettrace()
    sys.settrace(trace)
    try:
        call()
    finally:
        sys.settrace(before)


class Traced(unittest.TestCase):
    """Calls with one symbol, with lists, and of many coders."""

    def test_each_line(self) -> None:
        """After the exception the coder is as before or as after the call, and isn't taken for one in a call."""
        stack, queue, batch = AnsCoder([1, 2, 3]), RangeEncoder(), AnsCoders(3)
        cases: list[tuple[Any, Callable[[Any], Any]]] = [
            (stack, lambda it: it.encode_reverse(3, TABLE)), (stack, lambda it: it.decode(TABLE)), (stack, lambda it: it.encode_reverse([1, 2, 3], TABLE)),
            (stack, lambda it: it.decode(TABLE, 3)), (stack, lambda it: it.encode_reverse(3, FAMILY, 0.5, 2.0)), (stack, lambda it: it.decode(WeightTable(), [1 << 23] * 2)),
            (queue, lambda it: it.encode(3, TABLE)), (queue, lambda it: it.encode([1, 2], FAMILY, [0.5, 1.5], [2.0, 2.5])),
            (batch, lambda it: it.encode_reverse([1, 2, 3], TABLE)), (batch, lambda it: it.decode(FAMILY, [0.5] * 3, [2.0] * 3)),
        ]  # fmt: skip
        stopped = 0
        for coder, change in cases:
            for _ in range(4):
                change(coder)
            place = 0
            while place >= 0:
                place += 1
                twin, after = twin_of(coder), twin_of(coder)
                change(after)
                try:
                    traced(lambda: change(coder), place)
                    place = -1
                except Interrupt:
                    stopped += 1
                told = twin_of(coder)
                self.assertTrue(told in (twin, after))
                change(coder), change(told)
                self.assertEqual(coder, told)
        self.assertGreater(stopped, 500)


if __name__ == "__main__":
    unittest.main()
