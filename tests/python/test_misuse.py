"""Wrong arguments are refused with a message that names the expected value and the place, and nothing changes."""

from __future__ import annotations

import ctypes
import math
import os
import subprocess
import sys
import unittest
from array import array
from collections.abc import Callable
from fractions import Fraction
from pathlib import Path
from typing import Any

import definitions as by
import definitions_of_models as models
from constriction import _library, errors
from constriction.store import Store
from constriction.stream.chain import ChainCoder

from constriction.stream.model import (
    Bernoulli, Binomial, Categorical, CustomModel, QuantizedCauchy, QuantizedGaussian, QuantizedMixture, Uniform,
    WeightTable,
)  # fmt: skip
from constriction.stream.queue import RangeDecoder, RangeEncoder
from constriction.stream.stack import AnsCoder
from constriction.symbol import (
    DecoderHuffmanTree,
    EncoderHuffmanTree,
    ExpGolomb,
    QueueDecoder,
    QueueEncoder,
    StackCoder,
)
from classes_of_families import KINDS

THREE = WeightTable([1 << 22, 1 << 22, 1 << 23])
FAMILY, FIXED = QuantizedGaussian(-9, 9), QuantizedGaussian(-9, 9, 0.0, 3.0)
FULL = (1 << 64) - 1
Call = Callable[[], Any]


class Misuse(unittest.TestCase):
    """Helpers of tests that expect errors."""

    def refused(self, kind: type[Exception], text: str, call: Call) -> Any:
        """Expects an error with a text, and returns it."""
        with self.assertRaisesRegex(kind, text) as caught:
            call()
        return caught.exception

    def unchanged(self, kind: type[Exception], text: str, way: Callable[[Any], Any]) -> None:
        """Expects an error from a call on a stack coder and on a chain coder, which stay unchanged."""
        for coder in (AnsCoder([5, 6, 7]), ChainCoder(array("I", range(1, 50)))):
            before = coder._plain(coder._state)
            self.refused(kind, text, lambda coder=coder: way(coder))  # type: ignore[misc]
            self.assertEqual(coder._plain(coder._state), before)


class Counts(Misuse):
    """Numbers of symbols."""

    def test_counts_past_memory(self) -> None:
        """Counts past memory are refused before anything is decoded, in a process with little memory."""
        program = """
import resource
from time import perf_counter
from constriction.stream.chain import ChainCoder
from constriction.stream.model import Uniform
from constriction.stream.queue import RangeDecoder
from constriction.stream.stack import AnsCoder
from constriction.symbol import DecoderHuffmanTree, ExpGolomb, QueueDecoder, StackCoder
have = int(open("/proc/self/statm").read().split()[0]) * resource.getpagesize()
resource.setrlimit(resource.RLIMIT_AS, (have + (64 << 20),) * 2)
begun = perf_counter()
for coder in (AnsCoder([1, 2, 3]), RangeDecoder([1, 2, 3]), ChainCoder([1, 2, 3])):
    before = coder._plain(coder._state)
    for count in (1 << 28, 1 << 40, 1 << 48, (1 << 48) + 1, 1 << 63, 1 << 70, -1):
        try:
            coder.decode(Uniform(4), count)
        except (MemoryError, ValueError) as it:
            print(type(it).__name__, end=" ")
        assert coder._plain(coder._state) == before
    print()
for coder, tree in (
    (QueueDecoder([0xFFFFFFFF] * 3), ExpGolomb()), (StackCoder([0xFFFFFFFF] * 3), ExpGolomb()), (QueueDecoder([1, 2, 3]), DecoderHuffmanTree([1, 1])),
    (QueueDecoder([1, 2, 3]), DecoderHuffmanTree([1])),  # Codewords of no bits.
):
    try:
        coder.decode(tree, 1 << 40)
    except (MemoryError, ValueError) as it:
        print(type(it).__name__, end=" ")
print()
print(perf_counter() - begun < 1)
"""
        # Without numpy, which needs more memory than the process may have.
        folders = Path(__file__).parent / "without_numpy", Path(_library.__file__).parents[1]
        path = {"PYTHONPATH": os.pathsep.join(map(str, folders)), "CONSTRICTION_LIBRARY": str(_library.PATH)}
        ran = subprocess.run(
            [sys.executable, "-c", program], env={**os.environ, **path}, capture_output=True, text=True
        )
        line, rest = "MemoryError MemoryError MemoryError", "ValueError ValueError ValueError ValueError \n"
        bounded = line.replace("MemoryError", "OutOfDataError")  # The words bound the count.
        wanted = f"{line} {rest}" * 2 + f"{bounded} {rest}{bounded} MemoryError \nTrue\n"
        self.assertEqual((ran.stdout, ran.stderr), (wanted, ""))

    def test_what_is_no_count(self) -> None:
        """Values that aren't whole numbers from 0 to 2^48 are refused as numbers of symbols."""
        text = "^expected a number of symbols as a whole number, got "
        for wrong in (1.0, "3", None, [2]):
            for model in (FIXED, THREE, Uniform(4)):
                if wrong is not None:
                    self.unchanged(TypeError, text, lambda it: it.decode(model, wrong))
                    self.unchanged(TypeError, text, lambda it: it.decode(model, amt=wrong))
        for decode in (QueueDecoder([1]).decode, StackCoder([9]).decode):
            self.refused(TypeError, text, lambda: decode(ExpGolomb(), 1.0))  # type: ignore[arg-type]
        self.unchanged(
            ValueError, r"^expected a number of symbols between 0 and 2\^48, got -1$", lambda it: it.decode(FIXED, -1)
        )

    def test_counts_by_keyword(self) -> None:
        """`amt` gives the number of symbols by keyword."""
        for coder in (AnsCoder([5, 6, 7]), RangeDecoder([5, 6, 7]), ChainCoder(array("I", range(1, 50)))):
            twin: Any = coder.clone()
            for count in (0, 1, 3):
                self.assertEqual(coder.decode(THREE, amt=count), twin.decode(THREE, count))
        self.unchanged(
            TypeError,
            r"^expected 2 lists of parameters after the model \(mean, std\), got a number of symbols$",
            lambda it: it.decode(FAMILY, amt=3),
        )
        self.unchanged(
            TypeError,
            "^expected parameters or a number of symbols, got both$",
            lambda it: it.decode(FAMILY, [0.5], [1.0], amt=1),
        )


class Lists(Misuse):
    """Lists of numbers, and models."""

    def test_text_is_no_number(self) -> None:
        """Texts and bytes are refused as numbers and as lists of numbers."""
        for call in (
            lambda: QuantizedGaussian(-50, 50, "0", "1"), lambda: QuantizedGaussian(-50, 50, 0.0, b"1"), *(lambda kind=kind: kind(0, 9, "1", 2.0) for kind in KINDS.values()),
            lambda: QuantizedCauchy(0, 9, "1", 2.0), lambda: Bernoulli("0.5"), lambda: Binomial(4, "0.5"),
            lambda: AnsCoder().decode(FAMILY, "0", "1"), lambda: AnsCoder().encode_reverse(3, FAMILY, "0", 1.0),
            lambda: AnsCoder().decode(FAMILY, ["0"], [1.0]), lambda: AnsCoder().decode(Bernoulli(), "0.5"),
        ):  # fmt: skip
            self.refused(TypeError, "number", call)  # type: ignore[arg-type]
        for wrong in (["0.5", "0.5"], [b"1", b"1"], ("1", 2.0), "55", b"55"):
            self.refused(TypeError, "number", lambda: Categorical(wrong))  # type: ignore[arg-type]
            self.refused(TypeError, "number", lambda: WeightTable(wrong))  # type: ignore[arg-type]
            self.refused(TypeError, "number", lambda: EncoderHuffmanTree(wrong))  # type: ignore[arg-type]
            self.refused(TypeError, "number", lambda: AnsCoder(wrong))  # type: ignore[arg-type]
        self.unchanged(TypeError, "^expected a list of numbers, got str$", lambda it: it.encode_reverse("abc", THREE))
        self.unchanged(TypeError, r"array\('I', data\)", lambda it: it.encode_reverse(b"\1\2", THREE))

    def test_what_has_no_order(self) -> None:
        """Dictionaries and sets are refused as lists."""
        for wrong in ({1: 2}, {1, 2}, frozenset((1, 2)), {1: 2}.keys()):
            text = f"^expected a list of .*, got {type(wrong).__name__}"
            self.unchanged(TypeError, text, lambda it: it.encode_reverse(wrong, THREE))
            self.unchanged(TypeError, text, lambda it: it.encode_reverse([1], FAMILY, wrong, wrong))
            self.unchanged(TypeError, text, lambda it: it.decode(FAMILY, wrong, [1.0]))
            self.unchanged(TypeError, text, lambda it: it.decode(WeightTable(), wrong))
            for make in (Categorical, WeightTable, AnsCoder, RangeDecoder, EncoderHuffmanTree, ExpGolomb().symbols):
                self.refused(TypeError, text, lambda: make(wrong))  # type: ignore[operator]
        self.assertEqual(list(Categorical({0: 1, 1: 3}.values()).table()), [1 << 22, 3 << 22])

    def test_what_stands_for_all(self) -> None:
        """A list of one number stands for all symbols. A dictionary, a set or bytes with one number aren't lists."""
        text, ones, tables = "^expected a list of ", [1.0] * 2, WeightTable([[1 << 23] * 2] * 2)
        for wrong in ({5.0: 1}, {5.0}, frozenset((5.0,)), {5.0: 1}.keys(), b"\5", bytearray(b"\5")):
            self.unchanged(TypeError, text, lambda it: it.encode_reverse([1, 2], FAMILY, wrong, ones))
            self.unchanged(TypeError, text, lambda it: it.encode_reverse([1, 2], FAMILY, ones, wrong))
            self.unchanged(TypeError, text, lambda it: it.decode(FAMILY, wrong, ones))
        for wrong in ({1: 1}, {1}, b"\1"):
            self.unchanged(TypeError, text, lambda it: it.encode_reverse([1, 0], tables, wrong))

    def test_one_number_is_no_list(self) -> None:
        """A single number is refused as a list."""
        for make in (
            Categorical,
            WeightTable,
            AnsCoder,
            RangeDecoder,
            EncoderHuffmanTree,
            DecoderHuffmanTree,
            ChainCoder,
        ):
            self.refused(TypeError, "^expected a list of .*, got int$", lambda: make(5))  # type: ignore[operator]
        for family in (WeightTable(), Categorical()):
            self.unchanged(
                TypeError,
                "^expected a list of rows, one for each symbol, got int$",
                lambda it: it.decode(family, 5),
            )

    def test_what_is_no_model(self) -> None:
        """Values that aren't models or codebooks are refused, as are arguments in the wrong order."""
        for wrong in (None, 3, [1, 2], Uniform, EncoderHuffmanTree([1, 1])):
            for call in (
                lambda it: it.decode(wrong),
                lambda it: it.decode(wrong, 3),
                lambda it: it.encode_reverse([1], wrong),
            ):
                self.unchanged(TypeError, r"^expected a model \(see constriction\.stream\.model\), got ", call)
        self.unchanged(
            TypeError,
            "^expected the symbols and then the model, got the model first$",
            lambda it: it.encode_reverse(THREE, [1]),
        )
        self.unchanged(TypeError, "^expected a model ", lambda it: it.decode(3, THREE))
        for call in (
            lambda: QueueEncoder().encode(1, THREE), lambda: QueueEncoder().encode([1], THREE), lambda: StackCoder([1]).decode(THREE),  # type: ignore[arg-type]
            lambda: StackCoder().encode_symbol(1, None), lambda: QueueEncoder().encode(ExpGolomb(), 1),  # type: ignore[arg-type]
        ):  # fmt: skip
            self.refused(TypeError, "^expected a codebook, ", call)

    def test_functions_that_give_no_numbers(self) -> None:
        """A distribution function that returns no number is refused."""
        for cdf in (lambda x: math.nan, lambda x: "0.5", lambda x: None):
            kind = ValueError if isinstance(cdf(0), float) else TypeError
            model = CustomModel(cdf, None, 0, 9)
            self.unchanged(kind, "number", lambda it: it.decode(model))
            self.unchanged(kind, "number", lambda it: it.encode_reverse([1], model))
        model = CustomModel(lambda x, k: math.nan if x > k else 0.5, None, 0, 9)
        self.unchanged(
            ValueError,
            "^expected a number from the cumulative distribution function, got nan$",
            lambda it: it.decode(model, [-9.0]),
        )
        self.refused(TypeError, "^expected a cumulative distribution function, got str$", lambda: CustomModel("cdf", None, 0, 9))  # type: ignore[arg-type]

    def test_functions_that_fall(self) -> None:
        """A distribution function that falls is refused, or the symbol comes back from any words."""
        text, seen = "^expected a cumulative distribution function that never falls, got one that falls$", 0
        functions: list[Callable[[float, float], float]] = [
            lambda x, k: 1.0 - x / k,
            lambda x, k: 0.75 if x < 3 else 0.25,
            lambda x, k: math.cos(x) ** 2,
        ]
        for cdf in functions:
            model = CustomModel(cdf, None, 0, 9)
            for symbol in range(10):
                for start in range(20):
                    coder = AnsCoder([start << 26, 7])
                    try:
                        coder.encode_reverse(symbol, model, 10.0)
                    except ValueError as it:
                        self.assertRegex(str(it), text)
                        seen += 1
                    else:
                        self.assertEqual(coder.decode(model, 10.0), symbol)
        self.assertGreater(seen, 200)
        self.unchanged(ValueError, text, lambda it: it.decode(CustomModel(functions[0], None, 0, 9), [10.0] * 6))


class Places(Misuse):
    """Errors name the index of the wrong item."""

    def test_impossible_symbols(self) -> None:
        """The error names the impossible symbol, its index, and the possible symbols."""
        cases: list[tuple[Any, Any, tuple[Any, ...], str, int, int | None]] = [
            ([0, 2, 3, 7], THREE, (), "Expected 0 .. 2, got 3 at place 2.$", 3, 2),
            (3, THREE, (), "Expected 0 .. 2, got 3.$", 3, None),
            ([1 << 70], THREE, (), f"got {1 << 70} at place 0.$", 1 << 70, 0),
            ((0, 1), WeightTable([1 << 24, 0]), (), "Expected a symbol with a weight above 0, got 1 at place 1.$", 1, 1),
            (array("q", [-9, 9, -10]), FIXED, (), "Expected -9 .. 9, got -10 at place 2.$", -10, 2),
            ([0, 10], FAMILY, ([0.0] * 2, [1.0] * 2), "Expected -9 .. 9, got 10 at place 1.$", 10, 1),
            (10, FAMILY, (0.0, 1.0), "Expected -9 .. 9, got 10.$", 10, None),
            ([1, 2], Bernoulli(), ([0.5, 0.5],), "Expected 0 .. 1, got 2 at place 1.$", 2, 1),
            (iter([0, 0, 1]), WeightTable(), ([[1 << 24, 0]] * 3,), "weight above 0, got 1 at place 2.$", 1, 2),
            ([0, 4], QuantizedCauchy(0, 3), ([0.0] * 2, [1.0] * 2), "Expected 0 .. 3, got 4 at place 1.$", 4, 1),
        ]  # fmt: skip
        for symbols, model, given, text, symbol, place in cases:
            for coder in (AnsCoder(), RangeEncoder()):
                encode: Any = coder.encode if isinstance(coder, RangeEncoder) else coder.encode_reverse
                again = list(symbols) if hasattr(symbols, "__next__") else symbols
                symbols = list(again) if hasattr(symbols, "__next__") else symbols
                found = self.refused(
                    errors.ImpossibleSymbolError,
                    rf"^Impossible symbol\. .*{text}",
                    lambda: encode(again, model, *given),
                )
                self.assertEqual((found.symbol, found.place), (symbol, place))
                self.assertTrue(coder.is_empty())
        for call, text in (
            (
                lambda: QueueEncoder().encode([0, 4], EncoderHuffmanTree([1, 2, 1])),
                "Expected 0 .. 2, got 4 at place 1",
            ),
            (
                lambda: StackCoder().encode_reverse([0] * 99 + [3], EncoderHuffmanTree([1, 2, 1])),
                "got 3 at place 99",
            ),
            (lambda: QueueEncoder().encode([7, -1], ExpGolomb()), "Expected 0 .. 4294967295, got -1 at place 1"),
            (lambda: StackCoder().encode_symbol(1 << 32, ExpGolomb()), "got 4294967296"),
        ):
            self.refused(errors.ImpossibleSymbolError, text, call)

    def test_lengths(self) -> None:
        """The error names both lengths, if lists differ in length."""
        text = "^expected as many sets of parameters as symbols, got 2 sets of parameters and 3 symbols$"
        self.unchanged(ValueError, text, lambda it: it.encode_reverse([1, 2, 3], FAMILY, [0.0] * 2, [1.0] * 2))
        self.unchanged(
            ValueError, text, lambda it: it.encode_reverse([1, 2, 3], QuantizedCauchy(0, 9), [0.0] * 2, [1.0] * 2)
        )
        text = "^expected as many rows of weights as symbols, got 2 rows of weights and 1 symbols$"
        self.unchanged(ValueError, text, lambda it: it.encode_reverse([0], WeightTable(), [[1 << 24]] * 2))
        text = "^expected lists of parameters of one length, got the lengths 2 and 3$"
        for family in (FAMILY, QuantizedCauchy(0, 9), CustomModel(lambda x, a, b: 0.5, None, 0, 9)):
            self.unchanged(ValueError, text, lambda it: it.decode(family, [0.0] * 2, [1.0] * 3))

    def test_parameters(self) -> None:
        """The error names the wrong parameter, its value and its index."""
        for call, text in (
            (
                lambda: AnsCoder().decode(FAMILY, [0.0] * 3, [1.0, -2.5, 1.0]),
                "^expected a std that is positive and finite, got -2.5 at place 1$",
            ),
            (
                lambda: AnsCoder().decode(FAMILY, [0.0] * 40, [1.0] * 39 + [0.0]),
                "^expected a std .*, got 0.0 at place 39$",
            ),
            (
                lambda: AnsCoder().decode(FAMILY, [0.0, math.nan], [1.0] * 2),
                "^expected a mean that is finite, got nan at place 1$",
            ),
            (lambda: AnsCoder().decode(FAMILY, 0.0, -1.0), "^expected a std .*, got -1.0$"),
            (lambda: QuantizedGaussian(0, 9, std=-1.0), "^expected a std .*, got -1.0$"),
            *((lambda kind=kind: kind(0, 9, math.inf), "^expected a mean .*, got inf$") for kind in KINDS.values()),
            (lambda: Bernoulli(1.5), "^expected a probability between 0 and 1, got 1.5$"),
            (
                lambda: Categorical([0.5, -0.5]),
                "^expected a probability that is at least 0 and finite, got -0.5 at place 1$",
            ),
            (lambda: Categorical([5, -1]), "^expected a probability that is at least 0, got -1 at place 1$"),
            (lambda: Categorical([0, 0]), "^expected a probability above 0, got none$"),
            (
                lambda: AnsCoder().decode(Categorical(), [[0.5, 0.5]] * 7 + [[0.5, math.nan]]),
                "^expected a probability that is at least 0 and finite, got nan at place 1 in row 7$",
            ),
            (
                lambda: AnsCoder().decode(WeightTable(), [[1 << 24], [-1]]),
                r"^expected a weight .*, got -1 at place 0 in row 1$",
            ),
        ):
            self.refused(ValueError, text, call)

    def test_weights(self) -> None:
        """The error names the wrong sum or weight, and its row or index."""
        text = "^expected weights with a sum of 16777216, got a sum of 16777217$"
        for call in (
            lambda it: it.encode_reverse(0, WeightTable([1, 1 << 24])),
            lambda it: it.decode(WeightTable([1, 1 << 24]), 2),
        ):
            self.unchanged(errors.WrongWeightsError, text, call)
        rows = [[1 << 24], [1 << 23, 5]]
        text = "^expected weights with a sum of 16777216, got a sum of 8388613 in row 1$"
        self.unchanged(errors.WrongWeightsError, text, lambda it: it.decode(WeightTable(), rows))
        self.unchanged(errors.WrongWeightsError, text, lambda it: it.encode_reverse([0, 0], WeightTable(), rows))
        self.unchanged(
            errors.Refusal, "^expected at least one weight, got none$", lambda it: it.decode(WeightTable([]))
        )
        for wrong in (-1, 1 << 32):
            self.refused(
                errors.WrongWeightsError,
                rf"^expected a weight of at least 0 and below 2\^32, got {wrong} at place 1$",
                lambda: WeightTable([5, wrong]),
            )
            for make in (AnsCoder, RangeDecoder, ChainCoder, StackCoder, QueueDecoder):
                text = rf"^expected a word of at least 0 and below 2\^32, got {wrong} at place 2$"
                self.refused(errors.InvalidDataError, text, lambda: make(iter([1, 2, wrong])))  # type: ignore[operator]
        self.refused(
            errors.WrongWeightsError,
            "^expected a weight of at least 0, got -1 at place 0$",
            lambda: EncoderHuffmanTree([-1, 2]),
        )
        self.refused(
            errors.WrongWeightsError,
            "^expected a probability .*, got -0.5 at place 1$",
            lambda: EncoderHuffmanTree([0.5, -0.5]),
        )
        self.refused(
            errors.WrongWeightsError,
            r"^expected weights with a sum below 2\^32, got a greater sum$",
            lambda: EncoderHuffmanTree([1, 1 << 40]),
        )


class Ranges(Misuse):
    """Ranges of symbols."""

    def test_ranges_past_63_bits(self) -> None:
        """A range past 63 bits is refused, and the ends of 63 bits are coded."""
        kinds: tuple[Any, ...] = (*KINDS.values(), QuantizedCauchy)
        for least, greatest in ((1 << 63, (1 << 63) + 10), ((1 << 63) - 4, 1 << 63), (-(1 << 63) - 1, -(1 << 63) + 4)):
            for kind in kinds:
                self.refused(
                    ValueError, r"^expected symbols between -2\^63 and 2\^63 - 1, got ", lambda: kind(least, greatest)
                )
                self.refused(ValueError, "^expected symbols between ", lambda: kind(least, greatest, float(least), 2.0))
            self.refused(
                ValueError, "^expected symbols between ", lambda: CustomModel(lambda x: 0.5, None, least, greatest)
            )
        for least in ((1 << 63) - 11, -(1 << 63)):
            for kind in kinds:
                model, coder, symbols = kind(least, least + 10), AnsCoder(), [least, least + 10, least + 3]
                coder.encode_reverse(symbols, model, [0.0] * 3, [1.0] * 3)
                coder.encode_reverse(least + 9, model, float(least), 2.5)
                self.assertEqual(coder.decode(model, float(least), 2.5), least + 9)
                self.assertEqual(coder.decode(model, [0.0] * 3, [1.0] * 3), symbols)


class WholeCounts(unittest.TestCase):
    """Whole numbers as counts."""

    def test_counts_past_53_bits(self) -> None:
        """Whole numbers aren't rounded."""
        lists = [
            [2**60, 2**60 + 1, 2**60],
            [2**63, 2**63 + 1, 2**63 - 1, 5],
            [2**64 - 1, 1, 2**64 - 1],
            [3 * 2**53 + 1, 2**53, 1],
            [0, 2**62 + 1, 2**62],
        ]
        for counts in lists:
            wanted = models.weights([it or 1 for it in counts])
            for given in (counts, tuple(counts), array("Q", counts)):
                self.assertEqual(list(Categorical(given).table()), wanted)
        self.assertEqual(list(Categorical([2**60, 2**60 + 1, 2**60]).table()), [5592405, 5592406, 5592405])
        self.assertEqual(list(Categorical([2**90, 2**91]).table()), list(Categorical([1, 2]).table()))
        self.assertEqual(list(Categorical([2**70 - 1, 2**8, 0]).table()), models.weights([2**62, 1, 1]))

    def test_small_counts_are_as_floats(self) -> None:
        for counts in ([3, 0, 5], [1], [7, 7, 7], [0, 0, 1], [10**15, 1]):
            self.assertEqual(list(Categorical(counts).table()), models.weights_of(counts))
            self.assertEqual(list(Categorical([float(it) for it in counts]).table()), models.weights_of(counts))


class PastFloats(Misuse):
    """Numbers past the floats, and buffers of unknown formats, raise documented errors."""

    def test_numbers(self) -> None:
        """Numbers past the floats are refused everywhere."""
        for huge in (10**400, -(10**400), Fraction(10**400), 10**5000):
            calls: list[Callable[[], Any]] = [
                lambda: QuantizedGaussian(-9, 9, huge, 1.0), lambda: QuantizedGaussian(-9, 9, 0.0, huge), lambda: QuantizedCauchy(-9, 9, huge, 1.0),
                lambda: Bernoulli(huge), lambda: Binomial(9, huge), lambda: Categorical([0.5, huge]), lambda: EncoderHuffmanTree([0.5, huge]),
                lambda: AnsCoder([5]).decode(CustomModel(lambda x: huge, None, 0, 9)), lambda: AnsCoder([5]).decode(Bernoulli(), [huge]),
                lambda: AnsCoder([5]).decode(QuantizedGaussian(-9, 9), [huge], [1.0]), lambda: AnsCoder([5]).decode(QuantizedGaussian(-9, 9), 0.0, huge),
                lambda: AnsCoder([5]).decode(Binomial(), [huge], [0.5]), lambda: AnsCoder([5]).decode(Uniform(), [huge]),
            ]  # fmt: skip
            for call in calls:
                self.assertRaises(ValueError, call)
        for size in (10**400, -(10**400), 10**5000):
            for call in (
                lambda: Binomial(size, 0.5),
                lambda: Uniform(size),
                lambda: AnsCoder([5]).decode(Uniform(3), size),
            ):
                self.assertRaises(ValueError, call)
            self.assertRaises(errors.ImpossibleSymbolError, AnsCoder().encode_reverse, size, Uniform(3))
            self.assertRaises(errors.WrongWeightsError, WeightTable, [size])

    def test_weights_of_a_mixture(self) -> None:
        """Weights of a mixture past their greatest sum are refused."""
        of, coder = QuantizedMixture(QuantizedGaussian(-9, 9)), AnsCoder([5, 6])
        for weights in ([1e308], [1e308, 1e308], [0.5, 1.7e308], [1e10, 1.0]):
            rest = [0.0] * len(weights), [1.0] * len(weights)
            for calls in (
                (coder.decode, (of, [weights], [rest[0]], [rest[1]])),
                (coder.encode_reverse, (1, of, weights, *rest)),
            ):
                self.assertRaisesRegex(errors.WrongWeightsError, "sum", calls[0], *calls[1])  # type: ignore[arg-type]

    def test_rows_of_an_unknown_format(self) -> None:
        turned = (ctypes.c_uint32.__ctype_be__ * 2 * 3)()
        for model in (WeightTable(), Categorical()):
            self.assertRaises(TypeError, AnsCoder([5]).decode, model, turned)
            self.assertRaises(TypeError, AnsCoder([5]).encode_reverse, [1, 1, 1], model, turned)


class WholeNumbersOfClasses(unittest.TestCase):
    """Whole numbers of other classes."""

    def test_counts(self) -> None:
        """Values with `__index__` are counts."""

        class Count:
            def __init__(self, of: int) -> None:
                self.of = of

            def __index__(self) -> int:
                return self.of

        for counts in ([5, 3, 0, 1 << 63], [1], [2, 2]):
            given: Any = list(map(Count, counts))
            for some in (given, tuple(given), [counts[0], *given[1:]]):
                self.assertEqual(list(Categorical(some).table()), list(Categorical(counts).table()))
            coder = AnsCoder()
            coder.encode_reverse([0], Categorical(), [given])
            self.assertEqual(coder.decode(Categorical(), given), 0)


class Stores(unittest.TestCase):
    """Stores over buffers of other types."""

    def test_memory_that_is_no_words(self) -> None:
        """A buffer of other items than 32-bit words is refused."""
        built = Store.build([[1, 0], [1]], WeightTable([1 << 23, 1 << 23]))
        for wrong in (
            array("f", [1.0]),
            array("i", [5]),
            array("H", [5]),
            memoryview(bytes(8)).cast("f"),
            memoryview(bytes(8)).cast("i"),
        ):
            with self.assertRaisesRegex(TypeError, "^expected a buffer of unsigned 32-bit words "):
                Store.from_parts(wrong, built.index, WeightTable([1 << 23, 1 << 23]))


if __name__ == "__main__":
    unittest.main()
