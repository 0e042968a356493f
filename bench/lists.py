#!/usr/bin/env python3
"""usage: PYTHONPATH=python bench/lists.py

Prints nanoseconds per symbol of lists from numpy: lines `python_lists_NAME C PYTHON`, each time the least of several runs.

A list has 65,536 of the driver's symbols, under the driver's weights. The C function gets the same arrays, and all its
arguments exist before: symbols of 64 bits, or of 8 bits in the cases with `bytes`, the weights and a buffer. From Python, an
encode begins with a new coder, and a decode with a coder of the words. Runs of the C function and from Python alternate.
Needs numpy.
"""

from __future__ import annotations

import os
import sys
from collections.abc import Callable
from ctypes import byref, c_size_t, c_uint64, c_void_p
from time import perf_counter_ns
from typing import Any

import numpy as np

sys.path.insert(0, os.path.dirname(os.path.abspath(__file__)))
from python import driver_symbols, driver_weights  # noqa: E402

from constriction._library import RangeDecoderState, RangeEncoderState, call, plain_function  # noqa: E402
from constriction.stream.model import WeightTable  # noqa: E402
from constriction.stream.queue import RangeDecoder, RangeEncoder  # noqa: E402
from constriction.stream.stack import AnsCoder  # noqa: E402

COUNT, RUNS = 65_536, 400
Run = Callable[[], Any]


def given(numbers: Any) -> tuple[Any, Any]:
    """Returns a list as arguments of a C function, which keep it alive."""
    address = c_void_p(numbers.ctypes.data)
    address.numbers = numbers  # type: ignore[attr-defined]
    return address, c_size_t(len(numbers))


def bound(name: str, *arguments: Any) -> Run:
    """Returns a call of a C function with these arguments."""
    function = plain_function(f"{name}_u32")

    def run() -> None:
        assert function(*arguments) == 0, name

    return run


class Lists:
    """The cases of one type of symbols."""

    def __init__(self, symbols: Any, form: str) -> None:
        self.symbols, self.form, weights = symbols, form, driver_weights()
        self.model, self.weights = WeightTable(weights), given(np.array(weights, dtype="uint32"))
        self.buffer, self.found = np.zeros(COUNT + 2, dtype="uint32"), np.zeros_like(symbols)
        self.length, self.needed = c_size_t(), byref(c_size_t())

    def ans(self) -> list[tuple[str, Run, Run]]:
        """Returns the cases of the stack coder: a name, the run of the C function and the one from Python."""
        coder, head = AnsCoder(), c_uint64()
        coder.encode_reverse(self.symbols, self.model)
        words, (count, last) = coder.get_compressed(), coder.pos()
        lead = byref(head), *given(self.buffer), byref(self.length), *self.weights
        read = byref(head), *given(np.array(words)), byref(self.length), *self.weights
        encode = bound(f"ans_encode{self.form}_reverse", *lead, *given(self.symbols), self.needed)
        decode = bound(f"ans_decode{self.form}", *read, *given(self.found))

        def c_encode() -> None:
            head.value = self.length.value = 0
            encode()

        def c_decode() -> None:
            head.value, self.length.value = last, count
            decode()

        return [
            (f"ans_encode{self.form}", c_encode, lambda: AnsCoder().encode_reverse(self.symbols, self.model)),
            (f"ans_decode{self.form}", c_decode, lambda: AnsCoder(words).decode(self.model, COUNT, dtype=self.symbols.dtype)),
        ]  # fmt: skip

    def range(self) -> list[tuple[str, Run, Run]]:
        """Returns the cases of the range coder."""
        encoder, writes, reads = RangeEncoder(), RangeEncoderState(), RangeDecoderState()
        encoder.encode(self.symbols, self.model)
        words = encoder.get_compressed()
        lead = byref(writes), *given(self.buffer), byref(self.length), *self.weights
        begin = bound("range_from_compressed", *given(np.array(words)), byref(reads))
        encode = bound(f"range_encode{self.form}", *lead, *given(self.symbols), self.needed)
        decode = bound(
            f"range_decode{self.form}", byref(reads), *given(np.array(words)), *self.weights, *given(self.found)
        )

        def c_encode() -> None:
            call("range_encoder_u32", byref(writes))
            self.length.value = 0
            encode()

        def c_decode() -> None:
            begin()
            decode()

        return [
            (f"range_encode{self.form}", c_encode, lambda: RangeEncoder().encode(self.symbols, self.model)),
            (f"range_decode{self.form}", c_decode, lambda: RangeDecoder(words).decode(self.model, COUNT, dtype=self.symbols.dtype)),
        ]  # fmt: skip

    def print(self) -> None:
        """Prints the times of all cases."""
        for name, in_c, from_python in (*self.ans(), *self.range()):
            in_c()
            answer = from_python()
            assert answer is None or (answer == self.symbols).all() and (self.found == self.symbols).all(), name
            least = [1 << 62] * 2
            for _ in range(RUNS):
                for i, run in enumerate((in_c, from_python)):
                    start = perf_counter_ns()
                    answer = run()
                    least[i] = min(least[i], perf_counter_ns() - start)
                    del answer
            print(f"python_lists_{name}", *(f"{it / COUNT:.3f}" for it in least), flush=True)


def main() -> None:
    """Prints the times of symbols of 64 and of 8 bits."""
    symbols = np.array(driver_symbols(driver_weights())[:COUNT])
    Lists(symbols.astype("int64"), "").print()
    Lists(symbols.astype("uint8"), "_bytes").print()


if __name__ == "__main__":
    main()
