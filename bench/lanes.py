#!/usr/bin/env python3
"""usage: PYTHONPATH=python bench/lanes.py

Prints nanoseconds per symbol of many stack coders from Python: lines `python_lanes_CALL_COUNT EACH ALL`, each time the
least of several runs. Each coder codes one symbol of -100 .. 100, with a mean and a deviation of its own in numpy
arrays. EACH is the time of a call for each `AnsCoder`, and ALL that of one call of `AnsCoders`. Both kinds of runs
alternate, and a decode follows each encode. Needs numpy.
"""

from __future__ import annotations

from collections.abc import Callable
from time import perf_counter_ns
from typing import Any

import numpy as np

from constriction.stream.model import QuantizedGaussian
from constriction.stream.stack import AnsCoder, AnsCoders

RUNS, FAMILY = 201, QuantizedGaussian(-100, 100)


def timed(run: Callable[[], Any]) -> tuple[int, Any]:
    """Returns the nanoseconds of a run, and its result."""
    start = perf_counter_ns()
    found = run()
    return perf_counter_ns() - start, found


def measure(count: int) -> None:
    """Prints the times of so many coders."""
    dice = np.random.default_rng(count)
    means, stds = dice.uniform(-30, 30, count), dice.uniform(0.3, 20.3, count)
    symbols = np.clip(np.rint(dice.normal(means, stds)), -100, 100).astype("int64")
    coders, alone = AnsCoders(count), [AnsCoder() for _ in range(count)]
    sets = list(zip(alone, symbols.tolist(), means.tolist(), stds.tolist()))

    def encode_each() -> None:
        for coder, symbol, mean, std in sets:
            coder.encode_reverse(symbol, FAMILY, mean, std)

    def decode_each() -> list[Any]:
        return [coder.decode(FAMILY, mean, std) for coder, _, mean, std in sets]

    runs: tuple[Callable[[], Any], ...] = (
        encode_each, lambda: coders.encode_reverse(symbols, FAMILY, means, stds),
        decode_each, lambda: coders.decode(FAMILY, means, stds),
    )  # fmt: skip
    least = [1 << 62] * len(runs)
    for _ in range(RUNS):
        times, found = zip(*map(timed, runs))
        least = list(map(min, least, times))
        assert found[2] == found[3].tolist() == symbols.tolist(), count
    for i, call in enumerate(("encode", "decode")):
        print(f"python_lanes_{call}_{count}", *(f"{it / count:.1f}" for it in least[2 * i : 2 * i + 2]), flush=True)


if __name__ == "__main__":
    for number in (64, 1024):
        measure(number)
