#!/usr/bin/env python3
"""usage: PYTHONPATH=python bench/python.py [PART_OF_A_NAME]

Prints nanoseconds per symbol of encodes and decodes from Python: lines `name ns_per_symbol`, each the least of several
runs. With PART_OF_A_NAME, it runs only the cases with this text in their name.

The million symbols and their weights are those of bench/driver, so the times are comparable with its lines, such as
`ans_encode_u32u64p24_table`. Symbols are in array('Q') (`array`), in numpy arrays if numpy can be imported (`numpy`),
or in a list (`list`). An encode begins with a new coder and ends with its words as an array. A decode begins with such
words. The model exists before a case begins. Cases of `gaussian` have a mean and a deviation for each symbol of -100 ..
100, as in bench/models.c. In their cases of `array`, the package can't import numpy, and all values are in array('d')
and array('q').

Cases of `one` code one symbol per call, 2,000 times, in nanoseconds per call: `table` with a fixed model of 256
symbols, `gaussian` with a mean and a deviation of its own over -100 .. 100, `row` with a row of 16 weights. With numpy,
`numpy256` has a row of 256 probabilities, `slice` has a mean and a deviation as slices with one number, and `mixture`
has five logistic distributions over -100 .. 100. `bare` only calls the C function ans_decode for one symbol with three
weights, by ctypes, with arguments that exist before.

Cases of `mixture` have five logistic distributions for each of 100,000 symbols of -128 .. 127, in numpy arrays.

Cases of `_categorical_` make a model of the named number of probabilities, in nanoseconds per model, and encode a
symbol with each row of 256 probabilities, in nanoseconds per symbol.
"""

from __future__ import annotations

import random
import sys
from array import array
from bisect import bisect_right
from collections.abc import Callable
from ctypes import byref, c_int64, c_size_t, c_uint32, c_uint64
from itertools import accumulate
from time import perf_counter_ns
from typing import Any
from unittest import mock

from constriction._library import plain_function
from constriction.stream.chain import ChainCoder

from constriction.stream.model import (
    Categorical, Model, QuantizedGaussian, QuantizedLogistic, QuantizedMixture, WeightTable,
)  # fmt: skip
from constriction.stream.queue import RangeDecoder, RangeEncoder
from constriction.stream.stack import AnsCoder

COUNT, RUNS, PRECISION = 1_000_000, 11, 24
#: The number of symbols with mixtures.
MIXED = 100_000
#: The number of calls of one symbol that are timed together.
CALLS = 2_000


def random_numbers(x: int, count: int) -> list[int]:
    """Returns numbers of the driver's generator: xorshift with 64 bits of state."""
    found = []
    for _ in range(count):
        x ^= x << 13 & 0xFFFFFFFFFFFFFFFF
        x ^= x >> 7
        x ^= x << 17 & 0xFFFFFFFFFFFFFFFF
        found.append(x)
    return found


def driver_weights() -> list[int]:
    """Returns the driver's weights: about 1 / ((i + 4) * (i + 16)), each at least 1. The first one takes the rest."""
    shares = [1_000_000_000 // ((i + 4) * (i + 16)) for i in range(256)]
    weights = [1 + share * ((1 << PRECISION) - 256) // sum(shares) for share in shares]
    weights[0] += (1 << PRECISION) - sum(weights)
    return weights


def driver_symbols(weights: list[int]) -> array[int]:
    """Returns the driver's symbols, drawn by these weights."""
    ends = list(accumulate(weights))
    return array("Q", (bisect_right(ends, x >> 40) for x in random_numbers(0x123456789ABCDEF1, COUNT)))


def least(run: Callable[[], Any], count: int = COUNT) -> float:
    """Returns the least time of a run, in nanoseconds per symbol. The result of a run is dropped after its time."""
    times = []
    for _ in range(RUNS if count > CALLS else 10 * RUNS):
        start = perf_counter_ns()
        answer = run()
        times.append(perf_counter_ns() - start)
        del answer
    return min(times) / count


def encoded(symbols: Any, model: Model, coder: str, *given: Any) -> Any:
    """Returns the words of a new coder after these symbols."""
    if coder == "ans":
        stack = AnsCoder()
        stack.encode_reverse(symbols, model, *given)
        return stack.get_compressed()
    queue = RangeEncoder()
    queue.encode(symbols, model, *given)
    return queue.get_compressed()


Case = tuple[str, Callable[[], Any]]


def without_numpy(run: Callable[[], Any]) -> Callable[[], Any]:
    """Returns the same run without numpy in the package."""

    def blind() -> Any:
        with mock.patch.dict(sys.modules, numpy=None):
            return run()

    return blind


def gaussian_cases(numpy: Any) -> list[Case]:
    """Returns encodes and decodes with a mean and a deviation for each symbol."""
    dice, model = random.Random(1), QuantizedGaussian(-100, 100)
    means = array("d", (dice.uniform(-30, 30) for _ in range(COUNT)))
    stds = array("d", (dice.uniform(0.3, 20.3) for _ in range(COUNT)))
    symbols = array("q", (max(-100, min(100, round(dice.gauss(mean, std)))) for mean, std in zip(means, stds)))
    lists: dict[str, Any] = {"array": (symbols, means, stds)}
    if numpy:
        lists["numpy"] = tuple(numpy.array(it) for it in (symbols, means, stds))
    cases = []
    for coder, make in (("ans", AnsCoder), ("range", RangeDecoder)):
        words = encoded(symbols, model, coder, means, stds)
        for kind, (given, *parameters) in lists.items():

            def encode(given: Any = given, coder: str = coder, parameters: Any = parameters) -> Any:
                return encoded(given, model, coder, *parameters)

            def decode(make: Any = make, words: Any = words, parameters: Any = parameters) -> Any:
                return make(words).decode(model, *parameters)

            assert decode().tobytes() == symbols.tobytes()
            for name, run in (("encode", encode), ("decode", decode)):
                run = run if kind == "numpy" else without_numpy(run)
                cases.append((f"python_{coder}_{name}_u32u64p24_gaussian_{kind}", run))
    return cases


def mixture_cases(numpy: Any) -> list[Case]:
    """Returns encodes and decodes with five logistic distributions for each symbol, over 256 symbols, from numpy."""
    dice, model = numpy.random.default_rng(1), QuantizedMixture(QuantizedLogistic(-128, 127))
    weights = numpy.full((MIXED, 5), 0.2)
    means, scales = dice.uniform(-30, 30, (MIXED, 5)), dice.uniform(0.3, 20.3, (MIXED, 5))
    chosen = numpy.arange(MIXED), dice.integers(0, 5, MIXED)
    drawn = dice.logistic(means[chosen], scales[chosen])
    symbols = numpy.clip(numpy.rint(drawn), -128, 127).astype("int64")
    words = encoded(symbols, model, "range", weights, means, scales)
    assert (RangeDecoder(words).decode(model, weights, means, scales) == symbols).all()
    return [
        (
            "python_range_encode_u32u64p24_mixture_numpy",
            lambda: encoded(symbols, model, "range", weights, means, scales),
        ),
        (
            "python_range_decode_u32u64p24_mixture_numpy",
            lambda: RangeDecoder(words).decode(model, weights, means, scales),
        ),
    ]


def bare() -> None:
    """Calls only the C function, which decodes one symbol. The head is restored before each call."""
    words, head, length, place = (c_uint32 * 8)(), c_uint64(), c_size_t(0), c_int64()
    weights, one, three, eight = (
        (c_uint32 * 3)(5, 1 << 20, (1 << 24) - 5 - (1 << 20)),
        c_size_t(1),
        c_size_t(3),
        c_size_t(8),
    )
    arguments = byref(head), byref(words), eight, byref(length), byref(weights), three, byref(place), one
    function = plain_function("ans_decode_u32")
    for _ in range(CALLS):
        head.value = 0x123456789ABCDEF
        function(*arguments)


def single_rows(numpy: Any, dice: random.Random) -> list[tuple[str, Model, list[Any]]]:
    """Returns models with the parameters of each call in numpy arrays."""
    if not numpy:
        return []
    row = numpy.array([dice.random() for _ in range(256)])
    means = numpy.array([dice.uniform(-30, 30) for _ in range(CALLS)])
    stds = numpy.array([dice.uniform(0.3, 20.3) for _ in range(CALLS)])
    five = [numpy.array([dice.uniform(*ends) for _ in range(5)]) for ends in ((0.1, 0.3), (-30, 30), (0.3, 20.3))]
    return [
        ("numpy256", Categorical(), [(row,)] * CALLS),
        ("slice", QuantizedGaussian(-100, 100), [(means[i : i + 1], stds[i : i + 1]) for i in range(CALLS)]),
        ("mixture", QuantizedMixture(QuantizedLogistic(-100, 100)), [tuple(five)] * CALLS),
    ]


def single_cases(weights: list[int], numpy: Any) -> list[Case]:
    """Returns cases with one symbol per call."""
    dice, table, family, given = random.Random(2), WeightTable(weights), QuantizedGaussian(-100, 100), WeightTable()
    places = dice.choices(range(256), weights, k=CALLS)
    means, stds = [dice.uniform(-30, 30) for _ in places], [dice.uniform(0.3, 20.3) for _ in places]
    near = [max(-100, min(100, round(dice.gauss(mean, std)))) for mean, std in zip(means, stds)]
    row = [1 << 20] * 16
    few = [dice.randrange(16) for _ in places]

    def encoder(coder: str) -> tuple[Any, Callable[..., None]]:
        it: Any = AnsCoder() if coder == "ans" else RangeEncoder()
        return it, it.encode_reverse if coder == "ans" else it.encode

    def by_table(coder: str) -> Any:
        it, encode = encoder(coder)
        for place in places:
            encode(place, table)
        return it

    def by_parameters(coder: str) -> Any:
        it, encode = encoder(coder)
        for symbol, mean, std in zip(near, means, stds):
            encode(symbol, family, mean, std)
        return it

    def by_row(coder: str) -> Any:
        it, encode = encoder(coder)
        for place in few:
            encode(place, given, row)
        return it

    def decode_by_table(make: Any, words: Any) -> list[int]:
        decode = make(words).decode
        return [decode(table) for _ in places]

    def decode_by_parameters(make: Any, words: Any) -> list[int]:
        decode = make(words).decode
        return [decode(family, mean, std) for mean, std in zip(means, stds)]

    def decode_by_row(make: Any, words: Any) -> list[int]:
        decode = make(words).decode
        return [decode(given, row) for _ in few]

    cases: list[Case] = [("python_one_bare", bare)]
    ways: list[tuple[str, Any, Any, Any]] = [
        ("table", by_table, decode_by_table, places),
        ("gaussian", by_parameters, decode_by_parameters, near),
        ("row", by_row, decode_by_row, few),
    ]
    for name, other, rows in single_rows(numpy, dice):

        def by_rows(coder: str, other: Model = other, rows: list[Any] = rows) -> Any:
            it, encode = encoder(coder)
            for place, parameters in zip(few, rows):
                encode(place, other, *parameters)
            return it

        def decode_by_rows(make: Any, words: Any, other: Model = other, rows: list[Any] = rows) -> list[int]:
            decode = make(words).decode
            return [int(decode(other, *parameters)) for parameters in rows]

        ways.append((name, by_rows, decode_by_rows, few))
    for coder, make in (("ans", AnsCoder), ("range", RangeDecoder)):
        for name, encode, decode, symbols in ways:
            words = encode(coder).get_compressed()
            assert coder == "ans" or decode(make, words) == symbols
            cases.append((f"python_one_{coder}_encode_{name}", lambda e=encode, c=coder: e(c)))
            cases.append((f"python_one_{coder}_decode_{name}", lambda d=decode, m=make, w=words: d(m, w)))
    return cases


def categorical_cases(numpy: Any) -> list[tuple[str, Callable[[], Any], int]]:
    """Returns cases that make models of probabilities, and encodes with rows of them, each with its count."""
    dice = random.Random(3)
    cases: list[tuple[str, Callable[[], Any], int]] = []
    for size in (256, 50_257, 65_536):
        drawn = [dice.random() for _ in range(size)]
        kinds: dict[str, Any] = {"list": drawn, "array": array("d", drawn)}
        if numpy:
            kinds["numpy"] = numpy.array(drawn)
        times = CALLS // size or 1
        for kind, given in kinds.items():

            def make(given: Any = given, times: int = times) -> Any:
                return [Categorical(given) for _ in range(times)]

            run = without_numpy(make) if kind == "array" else make
            cases.append((f"python_categorical_{size}_{kind}", run, times))
    if numpy:
        rows = numpy.array([[dice.random() for _ in range(256)] for _ in range(256)])
        symbols = numpy.array([dice.randrange(256) for _ in range(256)])
        for coder in ("ans", "range"):

            def encode(coder: str = coder) -> Any:
                return encoded(symbols, Categorical(), coder, rows)

            cases.append((f"python_categorical_rows_{coder}_encode_numpy", encode, 256))
    return cases


def main() -> None:
    """Prints the times of the wanted cases."""
    wanted = sys.argv[1] if len(sys.argv) > 1 else ""
    weights = driver_weights()
    numpy: Any
    try:
        import numpy
    except ImportError:
        numpy = None
        print("numpy can't be imported, so its cases are skipped", file=sys.stderr)
    if "_one_" in wanted:
        for name, run in single_cases(weights, numpy):
            if wanted in name:
                print(f"{name} {least(run, CALLS):.0f}", flush=True)
        return
    if "_categorical_" in wanted:
        for name, run, count in categorical_cases(numpy):
            if wanted in name:
                print(f"{name} {least(run, count):.0f}", flush=True)
        return
    symbols, model = driver_symbols(weights), WeightTable(weights)
    kinds: dict[str, Any] = {"array": symbols, "list": symbols.tolist()}
    if numpy:
        kinds["numpy"] = numpy.frombuffer(symbols, dtype=numpy.uint64)

    cases: list[Case] = []
    for coder, make in (("ans", AnsCoder), ("range", RangeDecoder)):
        words = encoded(symbols, model, coder)
        assert make(words).decode(model, COUNT).tobytes() == symbols.tobytes()
        for kind, given in kinds.items():
            cases.append(
                (f"python_{coder}_encode_u32u64p24_table_{kind}", lambda s=given, c=coder: encoded(s, model, c))
            )
        cases.append((f"python_{coder}_decode_u32u64p24_table", lambda m=make, w=words: m(w).decode(model, COUNT)))
    data = array("I", (x >> 32 for x in random_numbers(7, COUNT * 3 // 4 + 100)))
    data.append(1)
    chain = ChainCoder(data)
    found = chain.decode(model, COUNT)
    remainders = chain.get_remainders()[1]
    cases.append(("python_chain_decode_u32u64p24_table", lambda: ChainCoder(data).decode(model, COUNT)))
    cases.append(
        (
            "python_chain_encode_u32u64p24_table",
            lambda: ChainCoder(remainders, is_remainders=True).encode_reverse(found, model),
        )
    )
    if "gaussian" in wanted or not wanted:
        cases += gaussian_cases(numpy)
    for name, run in cases:
        if wanted in name:
            print(f"{name} {least(run):.3f}", flush=True)
    for name, run in mixture_cases(numpy) if numpy and ("mixture" in wanted or not wanted) else []:
        if wanted in name:
            print(f"{name} {least(run, MIXED):.0f}", flush=True)
    for name, run in single_cases(weights, numpy):
        if wanted in name:
            print(f"{name} {least(run, CALLS):.0f}", flush=True)


if __name__ == "__main__":
    main()
