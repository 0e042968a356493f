"""docs/vectors.txt, compared with the library at both sizes, and with the program if it is built.

The C functions are called by their names, without the package.
"""

from __future__ import annotations

import os
import subprocess
import unittest
from array import array
from ctypes import CDLL, Structure, byref, c_int32, c_size_t, c_uint16, c_uint32, c_uint64, c_void_p
from pathlib import Path
from typing import Any

import definitions_of_models as models
from constriction import _library
from constriction._sizes import LARGE, SMALL
from constriction.stream.model import Categorical, Uniform

TOP = Path(__file__).resolve().parents[2]
PROGRAM = Path(os.environ.get("CONSTRICTION_PROGRAM", TOP / "crates/constriction_cli/out/constriction_cli"))
LIBRARY = CDLL(str(_library.PATH))


def cases() -> list[dict[str, list[Any]]]:
    """Returns the cases of the file: the numbers or texts of each name."""
    found: list[dict[str, list[Any]]] = [{}]
    for line in (TOP / "docs/vectors.txt").read_text().splitlines():
        if not line and found[-1]:
            found.append({})
        elif line and not line.startswith("#"):
            name, *values = line.split()
            is_text = name in ("case", "family", "codewords")
            found[-1][name] = values if is_text else [int(value) for value in values]
    return found


class Size:
    """The C functions at one size of words."""

    def __init__(self, bits: list[int]) -> None:
        """Sets the types of the numbers and structs."""
        self.name = f"u{bits[0]}"
        self.word, self.state = (c_uint32, c_uint64) if bits[0] == 32 else (c_uint16, c_uint32)
        state, word = self.state, self.word

        class Encoder(Structure):
            _fields_ = [("lower", state), ("range", state), ("held", c_size_t), ("first", word)]

        class Decoder(Structure):
            _fields_ = [("lower", state), ("range", state), ("point", state), ("pos", c_size_t)]

        class Heads(Structure):
            _fields_ = [("remainders", state), ("compressed", word)]

        self.Encoder, self.Decoder, self.Heads = Encoder, Decoder, Heads

    def words(self, values: list[int], room: int = 0) -> Any:
        return (self.word * (len(values) + room + 1))(*values)

    def states(self, values: list[int]) -> Any:
        return (self.state * (len(values) + 1))(*values)

    def call(self, name: str, *arguments: Any) -> None:
        """Calls a function, which has to succeed. Whole numbers are lengths."""
        result = LIBRARY[f"constriction_{name}_{self.name}"](
            *(c_size_t(it) if isinstance(it, int) else it for it in arguments)
        )
        if result:
            raise AssertionError(f"{name}: result {result}")


def sizes(values: list[int]) -> Any:
    return (c_size_t * (len(values) + 1))(*values)


class Given:
    """The models of a case as arguments, and its symbols as indices."""

    def __init__(self, size: Size, case: dict[str, list[Any]]) -> None:
        """Reads the model of a case: a table of weights, or a family with parameters."""
        self.first, self.kind = 0, ""
        self.kept: tuple[Any, ...] = ()
        self.model: list[Any]
        if "width" in case:
            self._take_rows(size, case)
        elif "family" in case:
            self.first, self.kind = case["range"][0], "_quantized"
            count = len(case["locations"])
            locations, scales = (array(code, case[key]) for code, key in (("q", "locations"), ("I", "scales")))
            self.kept = locations, scales
            family, least, greatest = models.FAMILIES.index(case["family"][0]), *case["range"]
            given = [c_uint32(family), c_int32(least), c_int32(greatest)]
            self.model = [*given, address(locations), count, address(scales), count]
        else:
            self.model = [size.words(case["weights"]), len(case["weights"])]
        self.symbols = [symbol - self.first for symbol in case["symbols"]]

    def _take_rows(self, size: Size, case: dict[str, list[Any]]) -> None:
        """Takes a row for each symbol: of components of a family, or of counts."""
        width = case["width"][0]
        if "family" not in case:
            counts = array("I", case["counts"])
            self.kind, self.kept, self.model = "_counts", (counts,), [address(counts), len(counts), width]
            return
        self.first, self.kind = case["range"][0], "_mixture"
        lists = [array(code, case[key]) for code, key in (("I", "weights"), ("q", "locations"), ("I", "scales"))]
        family, least, greatest = models.FAMILIES.index(case["family"][0]), *case["range"]
        self.kept = tuple(lists)
        self.model = [c_uint32(family), c_int32(least), c_int32(greatest), width]
        self.model += [it for numbers in lists for it in (address(numbers), len(numbers))]

    def found(self, places: Any) -> list[int]:
        return [place + self.first for place in places[: len(self.symbols)]]


def address(numbers: array[int]) -> c_void_p:
    return c_void_p(numbers.buffer_info()[0])


def ans_encode(test: unittest.TestCase, size: Size, case: dict[str, list[Any]]) -> None:
    """Encodes the symbols, and compares the words."""
    given, room = Given(size, case), len(case["symbols"]) + 2
    words, head, count, needed = size.words([], room), size.state(0), c_size_t(0), c_size_t(0)
    buffer = [words, room, byref(count)]
    symbols = [sizes(given.symbols), len(given.symbols)]
    size.call(f"ans_encode{given.kind}_reverse", byref(head), *buffer, *given.model, *symbols, byref(needed))
    size.call("ans_into_compressed", head, *buffer, byref(needed))
    test.assertEqual(words[: count.value], case["words"])


def ans_decode(test: unittest.TestCase, size: Size, case: dict[str, list[Any]]) -> None:
    """Decodes the symbols, and compares the symbols and the rest."""
    given, length = Given(size, case), len(case["words"])
    words, places = size.words(case["words"], 2), sizes([0] * len(case["symbols"]))
    head, count, needed = size.state(0), c_size_t(0), c_size_t(0)
    size.call("ans_from_compressed", words, length, byref(count), byref(head))
    symbols = [places, len(given.symbols)]
    size.call(f"ans_decode{given.kind}", byref(head), words, length, byref(count), *given.model, *symbols)
    test.assertEqual(given.found(places), case["symbols"])
    size.call("ans_into_compressed", head, words, length + 2, byref(count), byref(needed))
    test.assertEqual(words[: count.value], case["rest"])


def range_coder(test: unittest.TestCase, size: Size, case: dict[str, list[Any]]) -> None:
    """Encodes and decodes the symbols, and compares words and symbols."""
    given, room = Given(size, case), len(case["symbols"]) + 2
    words, count, needed = size.words([], room), c_size_t(0), c_size_t(0)
    buffer, encoder, decoder = [words, room, byref(count)], size.Encoder(), size.Decoder()
    symbols = [sizes(given.symbols), len(given.symbols)]
    size.call("range_encoder", byref(encoder))
    size.call(f"range_encode{given.kind}", byref(encoder), *buffer, *given.model, *symbols, byref(needed))
    size.call("range_into_compressed", byref(encoder), *buffer, byref(needed))
    test.assertEqual(words[: count.value], case["words"])
    words, places = size.words(case["words"]), sizes([0] * len(given.symbols))
    size.call("range_from_compressed", words, len(case["words"]), byref(decoder))
    symbols = [places, len(given.symbols)]
    size.call(f"range_decode{given.kind}", byref(decoder), words, len(case["words"]), *given.model, *symbols)
    test.assertEqual(given.found(places), case["symbols"])


def chain(test: unittest.TestCase, size: Size, case: dict[str, list[Any]]) -> None:
    """Decodes the symbols and encodes them back, and compares symbols, remainders and words."""
    given, length, room = Given(size, case), len(case["words"]), len(case["words"]) + 3
    words, remainders, places = size.words(case["words"], 3), size.words([], room), sizes([0] * len(case["symbols"]))
    heads, left, count, needed = size.Heads(), c_size_t(0), c_size_t(0), c_size_t(0)
    size.call("chain_from_compressed", words, length, byref(left), byref(heads))
    buffers = [words, length, byref(left), remainders, room, byref(count)]
    symbols = [places, len(given.symbols)]
    size.call(f"chain_decode{given.kind}", byref(heads), *buffers, *given.model, *symbols, byref(needed))
    test.assertEqual(given.found(places), case["symbols"])
    size.call("chain_into_remainders", byref(heads), remainders, room, byref(count), byref(needed))
    test.assertEqual((words[: left.value], remainders[: count.value]), (case["rest"], case["remainders"]))

    length, left = len(case["remainders"]), c_size_t(0)
    remainders = size.words(case["remainders"])
    size.call("chain_from_remainders", remainders, length, byref(count), byref(heads))
    buffers = [words, room, byref(left), remainders, length, byref(count)]
    symbols = [sizes(given.symbols), len(given.symbols)]
    size.call(f"chain_encode{given.kind}_reverse", byref(heads), *buffers, *given.model, *symbols, byref(needed))
    size.call("chain_into_compressed", byref(heads), words, room, byref(left), byref(needed))
    test.assertEqual([*case["rest"], *remainders[: count.value], *words[: left.value]], case["words"])


def store(test: unittest.TestCase, size: Size, case: dict[str, list[Any]]) -> None:
    """Builds a store, and compares words, positions and chunks."""
    weights, lengths, total = case["weights"], case["lengths"], len(case["symbols"])
    words, count, needed, chunks = size.words([], total + 2), c_size_t(0), c_size_t(0), len(lengths)
    positions, lowers, ranges = sizes([0] * chunks), size.states([0] * chunks), size.states([0] * chunks)
    size.call(
        "store_build", words, total + 2, byref(count), positions, chunks, lowers, chunks, ranges, chunks,
        size.words(weights), len(weights), sizes(case["symbols"]), total, sizes(lengths), chunks, byref(needed),
    )  # fmt: skip
    test.assertEqual(words[: count.value], case["words"])
    found = [list(it[:chunks]) for it in (positions, lowers, ranges)]
    test.assertEqual(found, [case["positions"], case["lowers"], case["ranges"]])
    for i, length in enumerate(lengths):
        place, lower, wide = (case[key][i] for key in ("positions", "lowers", "ranges"))
        symbols, begin = sizes([0] * length), sum(lengths[:i])
        size.call(
            "store_chunk", words, len(case["words"]), place, size.state(lower), size.state(wide),
            size.words(weights), len(weights), symbols, length,
        )  # fmt: skip
        test.assertEqual(symbols[:length], case["symbols"][begin : begin + length])


def starts(test: unittest.TestCase, size: Size, case: dict[str, list[Any]]) -> None:
    count = len(case["symbols"])
    given = Given(size, {**case, "locations": case["location"] * count, "scales": case["scale"] * count})
    lefts, weights = size.words([0] * count), size.words([0] * count)
    size.call("quantized_intervals", *given.model, sizes(given.symbols), count, lefts, count, weights, count)
    test.assertEqual((lefts[:count], weights[:count]), (case["begins"], case["weights"]))


def counts(test: unittest.TestCase, size: Size, case: dict[str, list[Any]]) -> None:
    length, weights = len(case["counts"]), size.words([], len(case["counts"]))
    size.call("weights_of_counts", (c_uint64 * length)(*case["counts"]), length, weights, length)
    test.assertEqual(weights[:length], case["weights"])


def row(test: unittest.TestCase, size: Size, case: dict[str, list[Any]]) -> None:
    model = Categorical(case["counts"], perfect=False).at(LARGE if size.word is c_uint32 else SMALL)
    test.assertEqual(list(model.table()), case["weights"])


def uniform(test: unittest.TestCase, size: Size, case: dict[str, list[Any]]) -> None:
    if size.word is c_uint32:
        test.assertEqual(list(Uniform(*case["count"]).table()), case["weights"])


def codewords(test: unittest.TestCase, size: Size, case: dict[str, list[Any]]) -> None:
    """Encodes and decodes codewords, and compares words and symbols."""
    is_golomb = case["case"] == ["golomb"]
    values = case["numbers"] if is_golomb else case["symbols"]
    symbols = size.words(values) if is_golomb else sizes(values)
    # The weights of a tree have 32 bits at both sizes.
    weights = case.get("weights", [])
    before = [] if is_golomb else [(c_uint32 * len(weights))(*weights), len(weights)]
    for kind in ("queue", "stack"):
        name, wanted = "exp_golomb" if is_golomb else "huffman", case[kind]
        words, count, needed = size.words([], len(wanted)), c_size_t(0), c_size_t(0)
        buffer = [words, len(wanted), byref(count), byref(needed)]
        size.call(f"{name}_encode_{kind}", *before, symbols, len(values), *buffer)
        test.assertEqual(words[: count.value], wanted)
        found = size.words([0] * len(values)) if is_golomb else sizes([0] * len(values))
        size.call(f"{name}_decode_{kind}", *before, words, len(wanted), found, len(values))
        test.assertEqual(list(found[: len(values)]), values)


RUN = {
    "ans-encode": ans_encode, "ans-decode": ans_decode, "range": range_coder, "chain": chain, "store": store,
    "starts": starts, "counts": counts, "row": row, "uniform": uniform, "golomb": codewords, "huffman": codewords,
}  # fmt: skip


class Vectors(unittest.TestCase):
    """The test vectors with the library."""

    def test_library(self) -> None:
        """Each kind of case at both sizes, except entries of tables, which no function returns."""
        ran = set()
        for case in cases():
            (kind,) = case["case"]
            if kind != "values":
                with self.subTest(case=case):
                    RUN[kind](self, Size(case["bits"]), case)
                ran.add((kind, case["bits"][0]))
        self.assertEqual(ran, {(kind, bits) for kind in RUN for bits in (32, 16)})


def shown(values: list[Any]) -> str:
    return " ".join(map(str, values))


def chunks_of(case: dict[str, list[Any]]) -> list[list[int]]:
    ends = [sum(case["lengths"][: i + 1]) for i in range(len(case["lengths"]))]
    return [case["symbols"][end - length : end] for end, length in zip(ends, case["lengths"])]


def asked(case: dict[str, list[Any]]) -> tuple[str, list[str], list[str]]:
    """Returns the command for a case, its input, and its output."""
    (kind,), count = case["case"], len(case.get("symbols", []))
    weights, symbols = shown(case.get("weights", [])), shown(case.get("symbols", []))
    if kind == "ans-encode":
        return kind, [weights, symbols], [shown(case["words"])]
    if kind == "ans-decode":
        return kind, [weights, shown([count, *case["words"]])], [symbols]
    if kind == "range":
        return "range-encode", [weights, symbols], [shown(case["words"])]
    if kind == "chain":
        lines = [symbols, shown(case["rest"]), shown(case["remainders"])]
        return "chain-split", [weights, shown([count, *case["words"]])], lines
    if kind == "golomb":
        return kind, [shown(case["numbers"])], [shown(case["codewords"]), shown(case["queue"])]
    if kind == "huffman":
        return kind, [weights], [shown(case["codewords"])]
    chunks = list(map(shown, chunks_of(case)))
    return "store", [weights, shown(list(range(len(chunks)))), *chunks], [shown(case["words"]), *chunks]


@unittest.skipUnless(os.access(PROGRAM, os.X_OK), f"the program is not built: there is no {PROGRAM}")
class OfTheProgram(unittest.TestCase):
    """The test vectors with the program."""

    def test_program(self) -> None:
        """Each case of the program's size and commands."""
        for case in cases():
            is_of_program = not {"family", "width"} & case.keys() and case["case"][0] not in (
                "counts",
                "row",
                "uniform",
            )
            if case["bits"][0] == 32 and is_of_program:
                command, lines, answer = asked(case)
                ran = subprocess.run([PROGRAM, command], input="\n".join(lines) + "\n", capture_output=True, text=True)
                self.assertEqual((ran.stdout.splitlines(), ran.returncode), (answer, 0), case)


if __name__ == "__main__":
    unittest.main()
