"""Copies, pickles, threads, lack of memory, and wrong numbers: a call succeeds, or its coder is unchanged."""

from __future__ import annotations

import copy
import math
import os
import pickle
import random
import subprocess
import sys
import threading
import time
import unittest
from array import array
from collections.abc import Callable
from pathlib import Path
from typing import Any
from unittest import mock

import definitions
from constriction import _library, _units, _words, errors
from constriction.stream.chain import ChainCoder

from constriction.stream.model import (
    Bernoulli, Binomial, Categorical, CustomModel, QuantizedCauchy, QuantizedGaussian, QuantizedLogistic, Uniform, WeightTable,
)  # fmt: skip
from constriction.stream.queue import RangeDecoder, RangeEncoder
from constriction.stream.stack import AnsCoder
from constriction.symbol import (
    DecoderHuffmanTree,
    EncoderHuffmanTree,
    ExpGolomb,
    QueueDecoder,
    QueueEncoder,
    StackCoder,
)
from classes_of_families import KINDS, SCALES

PACKAGE = str(Path(_library.__file__).parents[1])
HALVES = WeightTable([8388608, 8388608])
COPIES: tuple[Callable[[Any], Any], ...] = (
    copy.copy, copy.deepcopy, lambda it: it.clone(), lambda it: pickle.loads(pickle.dumps(it)),
    lambda it: pickle.loads(pickle.dumps(it, protocol=0)),
)  # fmt: skip


def coders() -> dict[str, tuple[Any, Callable[[Any], Any], Callable[[Any], Any]]]:
    """Returns coders that aren't empty, each with a call that changes it and a call that returns its state."""
    golomb, family, given = ExpGolomb(), QuantizedGaussian(-9, 9), ([0.5] * 50, [2.0] * 50)
    ans, encoder, queue, stack = AnsCoder(), RangeEncoder(), QueueEncoder(), StackCoder()
    symbols = [i % 7 for i in range(300)]
    ans.encode_reverse(symbols, Uniform(7)), encoder.encode(symbols, Uniform(7))
    queue.encode(symbols, golomb), stack.encode_reverse(symbols, golomb)
    words = array("I", range(1, 1001))
    return {
        "AnsCoder": (
            ans,
            lambda it: it.encode_reverse(symbols, Uniform(300)),
            lambda it: (it.pos(), it.get_compressed()),
        ),
        "AnsCoder, decode": (
            AnsCoder(words),
            lambda it: it.decode(family, *given),
            lambda it: (it.pos(), it.get_compressed()),
        ),
        "AnsCoder, means": (
            ans.clone(),
            lambda it: it.encode_reverse(symbols[:50], family, *given),
            lambda it: (it.pos(), it.get_compressed()),
        ),
        "RangeEncoder, rows": (
            encoder.clone(),
            lambda it: it.encode([0, 1] * 25, Bernoulli(), [0.25] * 50),
            lambda it: (it.pos(), it.get_compressed()),
        ),
        "RangeEncoder": (
            encoder,
            lambda it: it.encode(symbols, Uniform(300)),
            lambda it: (it.pos(), it.get_compressed()),
        ),
        "RangeDecoder": (RangeDecoder(words), lambda it: it.decode(family, *given), lambda it: it._state.numbers),
        "ChainCoder": (ChainCoder(words), lambda it: it.decode(Uniform(7), 200), lambda it: it.get_remainders()),
        "QueueEncoder": (queue, lambda it: it.encode(symbols * 9, golomb), lambda it: it.get_compressed()),
        "QueueDecoder": (queue.get_decoder(), lambda it: it.decode(golomb, 100), lambda it: it._state.place),
        "StackCoder": (stack, lambda it: it.encode_reverse(symbols * 9, golomb), lambda it: it.get_compressed()),
        "StackCoder, decode": (stack.clone(), lambda it: it.decode(golomb, 100), lambda it: it.get_compressed()),
    }


class Copies(unittest.TestCase):
    """Copies and pickles of coders and models."""

    def test_coders(self) -> None:
        """A copy equals the coder, and changes independently of it."""
        for name, (coder, change, shown) in coders().items():
            for make in COPIES:
                with self.subTest(name):
                    before = shown(coder)
                    twin = make(coder)
                    self.assertIs(type(twin), type(coder))
                    self.assertEqual(shown(twin), before)
                    self.assertEqual(repr(change(twin)), repr(change(make(coder))))
                    self.assertNotEqual(shown(twin), before)
                    self.assertEqual(shown(coder), before)

    def test_originals_that_are_gone(self) -> None:
        for name, (coder, change, shown) in coders().items():
            twin, wanted = copy.deepcopy(coder), coder.clone()
            del coder
            array("Q", [-1 & (1 << 64) - 1]) * 100000
            self.assertEqual((repr(change(twin)), shown(twin)), (repr(change(wanted)), shown(wanted)), name)

    def test_fifty_deep_copies_of_one(self) -> None:
        coder = AnsCoder()
        coder.encode_reverse([i % 5 for i in range(5000)], Uniform(5))
        twins = [copy.deepcopy(coder) for _ in range(50)]
        for twin in twins:
            self.assertEqual(twin.decode(Uniform(5), 5000), [i % 5 for i in range(5000)])

    def test_a_cleared_long_coder(self) -> None:
        """A copy of a cleared coder can encode a long list."""
        coder = AnsCoder()
        coder.encode_reverse([0, 1] * 50000, HALVES)
        coder.clear()
        twin = copy.deepcopy(coder)
        twin.encode_reverse([0, 1] * 50000, HALVES)
        self.assertEqual(twin.decode(HALVES, 100000), [0, 1] * 50000)

    def test_models(self) -> None:
        """A copy of a model codes the same symbols."""
        for make in COPIES[:2] + COPIES[3:]:
            for model, given in (
                (Categorical([0.1, 0.6, 0.3]), ()), (WeightTable(array("I", [5, 1 << 23, (1 << 23) - 5])), ()), (Uniform(3), ()),
                (QuantizedGaussian(0, 2, 1.0, 1.0), ()), (QuantizedGaussian(0, 2), ([1.0] * 3, [2.0] * 3)), (Categorical(), ([[1, 2, 3]] * 3,)),
                (Bernoulli(0.5), ()), (QuantizedLogistic(0, 2, 1.0), ([2.0] * 3,)), *((kind(0, 1, 0.5, 1.0), ()) for kind in KINDS.values()),
            ):  # fmt: skip
                symbols, coder = [1, 0, 1], AnsCoder()
                coder.encode_reverse(symbols, model, *given)
                twin = make(model)
                del model
                array("I", [7]) * 100000
                self.assertEqual(coder.decode(twin, *(given or (3,))), symbols)
            tree = EncoderHuffmanTree([2, 2, 4, 1, 1])
            self.assertEqual(make(tree).codeword(3), tree.codeword(3))

    def test_what_is_put_beside(self) -> None:
        """Copies of a subclass keep further attributes."""

        class Named(AnsCoder):
            pass

        coder = Named()
        coder.names = ["one"]  # type: ignore[attr-defined]
        self.assertIs(copy.copy(coder).names, coder.names)  # type: ignore[attr-defined]
        self.assertIsNot(copy.deepcopy(coder).names, coder.names)  # type: ignore[attr-defined]
        self.assertEqual([it.names for it in copy.deepcopy([coder, coder])], [["one"], ["one"]])  # type: ignore[attr-defined]

    def test_weights_that_their_owner_changes(self) -> None:
        weights = array("I", [8388608, 8388608])
        model = WeightTable(weights)
        weights[0] = 1
        AnsCoder().encode_reverse([0, 1], model)


class Equal(unittest.TestCase):
    """``repr`` and ``==`` of coders and models."""

    def test_coders(self) -> None:
        """Coders are equal if their states are. They have no hash."""
        kinds: list[Any] = [it[0] for it in coders().values()]
        for coder, twin in zip(kinds, [it[0] for it in coders().values()]):
            self.assertEqual(coder, twin)
            self.assertEqual(coder, copy.deepcopy(coder))
            self.assertFalse(coder != coder.clone())
            self.assertRegex(repr(coder), f"^<{type(coder).__name__}: .*[0-9].*>$")
            self.assertNotEqual(coder, 5)
            self.assertRaises(TypeError, hash, coder)
        for (_, change, _), coder, twin in zip(coders().values(), kinds, [it[0] for it in coders().values()]):
            change(twin)
            self.assertNotEqual(coder, twin)
        self.assertEqual(repr(AnsCoder([1, 2, 3])), "<AnsCoder: 1 words, and a head of 34 bits>")

    def test_a_decode_and_its_converse(self) -> None:
        coder, other = AnsCoder(array("I", range(1, 100))), AnsCoder(array("I", range(1, 100)))
        other.encode_reverse(other.decode(Uniform(7), 200), Uniform(7))
        self.assertEqual(coder, other)

    def test_bits_past_the_length(self) -> None:
        """Bits of a buffer past a coder's bits make no difference."""
        golomb, tree = ExpGolomb(), EncoderHuffmanTree([2, 2, 4, 1, 1])
        for count in range(40):
            stack, queue = StackCoder(), QueueEncoder()
            stack.encode_reverse([5] * count, golomb), queue.encode([5] * count, golomb)
            longer, again = stack.clone(), StackCoder(stack.get_compressed()[0])
            longer.encode_reverse([7, 9], golomb)
            longer.decode(golomb, 2)
            for it in (longer, again):
                self.assertEqual((it, pickle.dumps(it)), (stack, pickle.dumps(stack)))
            other = queue.clone()
            with self.assertRaises(errors.ImpossibleSymbolError):
                other.encode([3, 4, 5], tree)  # Two codewords are in the buffer by then.
            self.assertEqual((other, pickle.dumps(other)), (queue, pickle.dumps(queue)))
            self.assertNotEqual(longer, other)

    def test_models(self) -> None:
        """Models are equal if their parameters are, and have readable representations."""

        def made() -> list[Any]:
            """Returns new models."""
            return [
                QuantizedGaussian(-9, 9), QuantizedGaussian(-9, 9, 0.5), QuantizedGaussian(-9, 9, std=2.0),
                *(kind(-9, 9, 0.5, 2.0) for kind in KINDS.values()), QuantizedLogistic(-9, 9), Uniform(7), Uniform(), Uniform(8), Bernoulli(0.25), Bernoulli(),
                WeightTable([1, (1 << 24) - 1]), WeightTable(), Categorical([1, 3]), Categorical(), WeightTable([1 << 20] * 16), Binomial(5, 0.5),
                QuantizedCauchy(0, 9, 1.0), CustomModel(abs, None, 0, 9),
            ]  # fmt: skip

        models = made()
        for i, (model, twin) in enumerate(zip(models, made())):
            self.assertEqual((model, hash(model)), (twin, hash(twin)))
            self.assertEqual([k for k, it in enumerate(models) if it == model], [i])
            if model.complete:
                AnsCoder([5]).decode(twin, 3), AnsCoder([5]).decode(twin)
                self.assertEqual(model, twin)  # Tables that were made in between make no difference.
        self.assertEqual([repr(it) for it in models], [
            "QuantizedGaussian(-9, 9)", "QuantizedGaussian(-9, 9, mean=0.5)", "QuantizedGaussian(-9, 9, std=2.0)",
            *(f"{kind.__name__}(-9, 9, mean=0.5, {SCALES[name]}=2.0)" for name, kind in KINDS.items()), "QuantizedLogistic(-9, 9)", "Uniform(7)", "Uniform()",
            "Uniform(8)", "Bernoulli(0.25)", "Bernoulli()", "WeightTable([1, 16777215])", "WeightTable()", "Categorical([4194304, 12582912])",
            "Categorical()", "WeightTable(<16 weights>)", "Binomial(n=5, p=0.5)", "QuantizedCauchy(0, 9, loc=1.0)", "CustomModel(abs, 0, 9)",
        ])  # fmt: skip
        for model in models:
            self.assertGreater(len(type(model).__init__.__doc__ or ""), 40)


class Threads(unittest.TestCase):
    """Calls from several threads."""

    def together(self, *calls: Callable[[], None]) -> list[BaseException]:
        """Runs calls in parallel threads, and returns their exceptions."""
        raised: list[BaseException] = []

        def run(call: Callable[[], None]) -> None:
            try:
                call()
            except BaseException as it:
                raised.append(it)

        threads = [threading.Thread(target=run, args=(it,)) for it in calls]
        before = sys.getswitchinterval()
        sys.setswitchinterval(1e-5)
        try:
            for it in threads:
                it.start()
            for it in threads:
                it.join()
        finally:
            sys.setswitchinterval(before)
        return raised

    def test_one_coder(self) -> None:
        """Encodes of several threads with one coder don't mix."""
        # Each list is wholly there, in one piece.
        coder, encoder, queue, stack = AnsCoder(), RangeEncoder(), QueueEncoder(), StackCoder()
        golomb = ExpGolomb()

        def work(symbol: int) -> None:
            """Makes the calls of a thread."""
            for _ in range(60):
                coder.encode_reverse([symbol] * 500, Uniform(4))
                encoder.encode([symbol] * 500, Uniform(4))
                queue.encode([symbol] * 100, golomb)
                stack.encode_reverse([symbol] * 100, golomb)
                len(encoder.get_compressed()), len(coder.get_compressed()), coder.clone(), pickle.dumps(encoder)

        self.assertEqual(self.together(*(lambda it=it: work(it) for it in range(4))), [])  # type: ignore[misc]
        for found, size in (
            (coder.decode(Uniform(4), 120000), 500), (encoder.get_decoder().decode(Uniform(4), 120000), 500),
            (queue.get_decoder().decode(golomb, 24000), 100), (stack.decode(golomb, 24000), 100),
        ):  # fmt: skip
            lists = [set(found[i : i + size]) for i in range(0, len(found), size)]
            self.assertTrue(all(len(it) == 1 for it in lists))
            self.assertEqual([lists.count({it}) for it in range(4)], [60] * 4)
        self.assertTrue(coder.is_empty() and stack.is_empty())

    def test_one_decoder(self) -> None:
        """Decodes of several threads with one decoder don't mix."""
        encoder, found = RangeEncoder(), []
        encoder.encode([i // 100 % 200 for i in range(40000)], Uniform(200))
        decoder = encoder.get_decoder()

        def work() -> None:
            """Makes the calls of a thread."""
            for _ in range(50):
                found.append(decoder.decode(Uniform(200), 100)[:].tolist())
                found.append(decoder.decode(Uniform(), [200] * 100).tolist())

        self.assertEqual(self.together(*[work] * 4), [])
        self.assertEqual(sorted(it for some in found for it in some), sorted(i // 100 % 200 for i in range(40000)))
        self.assertTrue(all(len(set(it)) == 1 for it in found))

    def test_different_coders_run_side_by_side(self) -> None:
        """A long call releases the lock of the interpreter."""
        # While one thread is inside a single call, another one runs Python: calls let go of the interpreter's lock.
        model, ticks, stop = Uniform(1 << 22), [], threading.Event()
        model.table()
        symbols = array("q", range(1 << 20))

        def spin() -> None:
            while not stop.is_set():
                ticks.append(time.perf_counter())

        inside = []
        original = _library._FUNCTIONS["ans_encode_reverse_u32"]

        def timed(*arguments: Any) -> int:
            begin = time.perf_counter()
            code: int = original(*arguments)
            inside.append((begin, time.perf_counter()))
            return code

        thread = threading.Thread(target=spin)
        thread.start()
        try:
            with mock.patch.dict(_library._FUNCTIONS, {"ans_encode_reverse_u32": timed}):
                AnsCoder().encode_reverse(symbols, model)
        finally:
            stop.set()
            thread.join()
        ((begin, end),) = inside
        middle = [it for it in ticks if begin + (end - begin) / 10 < it < end - (end - begin) / 10]
        self.assertGreater(len(middle), 100)

    def test_a_model_that_is_copied(self) -> None:
        """Another thread may use a model for the first time while a call copies it, as calls with words of 16 bits do."""
        for place in range(1, 1000):
            model, seen = Categorical([1, 2, 1]), 0

            def step(frame: Any, kind: str, argument: Any) -> Any:
                """Uses the model before the instruction with this number."""
                nonlocal seen
                frame.f_trace_opcodes = True
                if kind == "opcode":
                    seen += 1
                    if seen == place:
                        AnsCoder([5]).decode(model)
                return step

            sys.settrace(step)
            try:
                twin = copy.copy(model)
            finally:
                sys.settrace(None)
            self.assertEqual(twin, Categorical([1, 2, 1]))
            if seen < place:
                break
        self.assertGreater(place, 20)

    def test_a_model_that_calls_its_coder(self) -> None:
        """A model that calls its own coder is refused, and the coder stays unchanged."""
        coder = AnsCoder(array("I", range(1, 100)))
        before = coder.pos()

        def cdf(x: float, k: float) -> float:
            coder.decode(HALVES)
            return 0.5

        with self.assertRaises(RuntimeError):
            coder.decode(CustomModel(cdf, None, 0, 9), [1.0, 2.0])
        self.assertEqual(coder.pos(), before)

        def fixed(x: float) -> float:
            coder.encode_reverse(1, HALVES)
            return x / 9

        class Half:
            def __float__(self) -> float:
                coder.decode(HALVES)
                return 0.5

        coder.decode(HALVES), coder.encode_reverse(1, HALVES)
        before = coder.pos()
        calls: list[Callable[[], Any]] = [
            lambda: coder.decode(CustomModel(fixed, None, 0, 9)), lambda: coder.encode_reverse(1, CustomModel(fixed, None, 0, 9)),
            lambda: coder.decode(QuantizedGaussian(-9, 9), Half(), 1.0), lambda: coder.encode_reverse(1, QuantizedGaussian(-9, 9), 0.0, Half()),
        ]  # fmt: skip
        for call in calls:
            for _ in range(4):
                self.assertRaises(RuntimeError, call)
                self.assertEqual(coder.pos(), before)
        coder.decode(HALVES)


class Memory(unittest.TestCase):
    """Lack of memory."""

    def refused(self, call: Callable[[], Any], shown: Callable[[], Any]) -> int:
        """Refuses the first request for room, then the second, and so on, until the call succeeds.

        Returns how many were refused.
        """
        before = shown()
        for place in range(1000):
            seen = 0
            original = definitions_room

            def room(*given: Any) -> Any:
                nonlocal seen
                seen += 1
                if seen == place + 1:
                    raise MemoryError
                return original(*given)

            with mock.patch.multiple(_words, room=room), patched(room):
                try:
                    call()
                except MemoryError:
                    pass
            if seen <= place:
                return place
            self.assertEqual(shown(), before)
        raise AssertionError("it is never done")

    def test_each_growth(self) -> None:
        """Each refused request for room leaves the coder unchanged."""
        for name, (coder, change, shown) in coders().items():
            twin, wanted = coder.clone(), coder.clone()
            change(wanted)
            self.assertGreater(
                self.refused(lambda: change(twin), lambda: shown(twin))
                + name.startswith("Queue")
                + name.startswith("Stack"),
                0,
                name,
            )
            self.assertEqual(shown(twin), shown(wanted), name)

    def test_exports(self) -> None:
        for name, (coder, _, shown) in coders().items():
            if "Decoder" not in name:
                before = shown(coder)
                self.assertGreater(self.refused(lambda: shown(coder), lambda: 0), 0, name)
                self.assertEqual(shown(coder), before)

    def test_bits_that_find_no_room(self) -> None:
        """If a bit coder lacks memory, it stays unchanged."""

        class Full(bytearray):
            def __setitem__(self, place: Any, value: Any) -> None:
                raise MemoryError

        tree = EncoderHuffmanTree([2, 2, 4, 1, 1])
        queue, stack = QueueEncoder(), StackCoder()
        calls: list[tuple[Any, Callable[[Any], Any]]] = [(queue, queue.encode), (stack, stack.encode_reverse)]
        for coder, encode in calls:
            encode([3, 0, 2], tree)
            before, wanted = coder.get_compressed(), coder.clone()
            coder._state = coder._state._replace(memory=Full(coder._state.memory))
            for symbols in (4, [4, 1], [4, 1] * 50):
                with self.assertRaises(MemoryError):
                    encode(symbols, tree)
                self.assertEqual(coder.get_compressed(), before)
            coder._state = coder._state._replace(memory=bytearray(coder._state.memory))
            encode([4, 1], tree)
            again = wanted.encode if coder is queue else wanted.encode_reverse
            again([4, 1], tree)
            self.assertEqual(coder.get_compressed(), wanted.get_compressed())

    def test_growth_past_what_the_system_gives(self) -> None:
        """If the system refuses memory for words, the coder stays unchanged."""
        # A process whose list wants more words than it may have memory: 12 MB, after 4 MB of symbols.
        program = """
import resource
from array import array
from constriction.stream.model import WeightTable
from constriction.stream.stack import AnsCoder
model, coder, symbols = WeightTable([(1 << 24) - 1, 1]), AnsCoder(), array("B", b"\\1") * 4000000
coder.encode_reverse(symbols[:1000], model)
have = int(open("/proc/self/statm").read().split()[0]) * resource.getpagesize()
resource.setrlimit(resource.RLIMIT_AS, (have + (16 << 20),) * 2)
before = coder.pos()
words = len(coder.get_compressed())
try:
    coder.encode_reverse(symbols, model)
    print("done")
except MemoryError:
    print("refused", coder.pos() == before, len(coder.get_compressed()) == words)
coder.encode_reverse([1, 0], model)
print(coder.decode(model, 1002) == [1, 0] + [1] * 1000)
"""
        # Without numpy, which wants more memory than the process may have.
        folders = str(Path(__file__).parent / "without_numpy"), PACKAGE
        path = {"PYTHONPATH": os.pathsep.join(folders), "CONSTRICTION_LIBRARY": str(_library.PATH)}
        ran = subprocess.run(
            [sys.executable, "-c", program], env={**os.environ, **path}, capture_output=True, text=True
        )
        self.assertEqual((ran.stdout, ran.stderr), ("refused True True\nTrue\n", ""))


def patched(room: Any) -> Any:
    """Replaces the request for room in all modules that make it."""
    from contextlib import ExitStack

    stack = ExitStack()
    for name, module in list(sys.modules.items()):
        if name.startswith("constriction.") and getattr(module, "room", None) is definitions_room:
            stack.enter_context(mock.patch.object(module, "room", room))
    return stack


from constriction._buffers import room as definitions_room  # noqa: E402


class Arguments(unittest.TestCase):
    """Arguments whose methods fail."""

    def test_each_access(self) -> None:
        """If an access to a list of one number fails, no symbol is lost."""

        class Slice:
            """A list of one number. The access to it with the number ``place`` fails."""

            def __init__(self, number: float, place: int) -> None:
                self.number, self.place = number, place

            def __getattribute__(self, name: str) -> Any:
                held = object.__getattribute__(self, "__dict__")
                if name in ("ndim", "shape", "item", "__len__", "__array__"):
                    held["place"] -= 1
                    if not held["place"]:
                        raise ZeroDivisionError
                if name == "item":
                    return lambda: held["number"]
                return {"ndim": 1, "shape": (1,)}.get(name) or object.__getattribute__(self, name)

            def __len__(self) -> int:
                return 1

            def __iter__(self) -> Any:
                return iter((self.number,))

        family, failed = QuantizedGaussian(-9, 9), 0
        for place in range(1, 100):
            coder, wanted = AnsCoder([5, 6, 7]), AnsCoder([5, 6, 7])
            try:
                found = coder.decode(family, Slice(0.5, place), 2.0)
            except ZeroDivisionError:
                self.assertEqual(coder, wanted)
                failed += 1
                continue
            self.assertEqual(found, wanted.decode(family, [0.5], [2.0]))
            self.assertEqual(coder, wanted)
            break
        self.assertGreater(failed, 2)

    def test_faults_that_are_gone(self) -> None:
        """A number at fault that another thread changes before the message is made is refused as others are."""

        class Turns(list[int]):
            """A list whose number is at fault in the first look at it alone."""

            def __iter__(self) -> Any:
                number = self.pop()
                self.append(5)
                return iter((number,))

        for number in (-1, 1 << 32, 1 << 70):
            with self.assertRaisesRegex(errors.InvalidDataError, "^expected a word of at least 0 and below 2.32, got "):
                AnsCoder(Turns([number]))
        with mock.patch.object(_units, "_ends", lambda floats: (math.nan, math.nan)):
            with self.assertRaisesRegex(ValueError, "^expected a mean that is finite, got "):
                QuantizedGaussian(-9, 9, 0.5, 2.0)


class WholeNumbers(unittest.TestCase):
    """Symbols have to be whole numbers."""

    def test_floats_are_no_symbols(self) -> None:
        """Floats are refused as symbols and words."""
        family, fixed, tree = QuantizedGaussian(-9, 9), QuantizedGaussian(-9, 9, 0.0, 3.0), EncoderHuffmanTree([1, 1])
        for call in (
            lambda it: AnsCoder().encode_reverse(it, fixed), lambda it: RangeEncoder().encode(it, fixed),
            lambda it: QueueEncoder().encode(it, tree), lambda it: StackCoder().encode_reverse(it, tree),
            lambda it: QueueEncoder().encode(it, ExpGolomb()), lambda it: AnsCoder(it),
            lambda it: ChainCoder([1, 2, 3]).encode_reverse(it, fixed),
        ):  # fmt: skip
            for wrong in ([1.9, -2.9], [1.0], array("d", [1.0]), array("f", [1.0])):
                self.assertRaisesRegex(TypeError, "expected whole numbers, got ", call, wrong)
        for call in (AnsCoder().encode_reverse, RangeEncoder().encode):
            for wrong in ([1.9, -2.9], array("d", [1.9, -2.9])):
                self.assertRaisesRegex(
                    TypeError, "expected whole numbers, got ", call, wrong, family, [0.0, 0.0], [1.0, 1.0]
                )
            self.assertRaisesRegex(TypeError, "expected whole numbers, got ", call, 1.0, family, 0.0, 1.0)
            self.assertRaisesRegex(TypeError, "expected whole numbers, got ", call, 1.0, fixed)
        for call in (QueueEncoder().encode_symbol, StackCoder().encode_symbol):
            self.assertRaisesRegex(TypeError, "expected whole numbers, got ", call, 1.0, tree)
        self.assertRaises(TypeError, AnsCoder([1]).decode, fixed, 1.0)
        self.assertRaises(TypeError, QueueDecoder([1]).decode, ExpGolomb(), 1.0)
        self.assertRaises(TypeError, AnsCoder([1]).seek, 0.0, 0)

    def test_whole_numbers_of_a_class(self) -> None:
        """Values with `__index__` are whole numbers."""

        class Three:
            def __index__(self) -> int:
                return 3

        coder = AnsCoder()
        coder.encode_reverse([Three()], Uniform(5))
        coder.encode_reverse(Three(), Uniform(5))  # type: ignore[arg-type]
        self.assertEqual(coder.decode(Uniform(5), 2), [3, 3])
        self.assertEqual(list(DecoderHuffmanTree([Three(), Three()])._weights), [3, 3])

    def test_unknown_memory(self) -> None:
        """A buffer in another byte order is refused, or read correctly."""
        import ctypes

        turned = (ctypes.c_uint32.__ctype_be__ * 2)(1, 0)
        for call in (lambda: AnsCoder().encode_reverse(turned, HALVES), lambda: AnsCoder(turned)):
            try:
                call()
            except (TypeError, errors.Refusal) as it:
                self.assertNotIsInstance(it, NotImplementedError)


if __name__ == "__main__":
    unittest.main()
