"""Coders as wholes, after calls that are refused, interrupted, or made from inside another call of the same coder.

Each coder has a twin that gets only the successful calls. After each other call, both are compared: their pickles,
``==``, exports, and the words at each recorded position. A pickle includes the words ahead, to which ``seek`` can go.

An interrupt is an exception at an event of Python: a call or the end of a call, of Python code or of a C function.
Handlers of signals run at these events.
"""

from __future__ import annotations

import pickle
import random
import signal
import sys
import unittest
from array import array
from collections.abc import Callable, Iterator
from typing import Any
from unittest import mock

import definitions as by
from constriction import _buffers, _coding, errors
from constriction.stream.chain import ChainCoder, SmallChainCoder

from constriction.stream.model import (
    Bernoulli, Categorical, CustomModel, Model, QuantizedGaussian, QuantizedMixture, Uniform, WeightTable,
)  # fmt: skip
from constriction.stream.model import _finite, _table
from constriction.stream.queue import RangeEncoder, SmallRangeEncoder
from constriction.stream.stack import AnsCoder, SmallAnsCoder
from constriction.symbol import EncoderHuffmanTree, ExpGolomb, QueueDecoder, QueueEncoder, StackCoder
from classes_of_families import KINDS

#: The number of calls that are refused, interrupted, or made from inside another call.
CALLS = 20_400
Change = Callable[[Any], Any]
#: A model under which a symbol takes 12 bits.
WIDE = Uniform(1 << 12)


class Interrupt(BaseException):
    """An interrupted call raises this exception."""


def with_events(call: Callable[[], Any], at: Callable[[int], None]) -> Any:
    """Makes the call, and calls ``at`` with the number of each event meanwhile."""
    seen = 0

    def event(frame: Any, kind: str, argument: Any) -> None:
        nonlocal seen
        seen += 1
        at(seen)

    sys.setprofile(event)
    try:
        return call()
    finally:
        sys.setprofile(None)


def events(call: Callable[[], Any]) -> int:
    """Makes the call, and returns the number of its events."""
    seen: list[int] = []
    with_events(call, seen.append)
    return len(seen)


def interrupted(call: Callable[[], Any], place: int) -> Any:
    """Makes the call, and raises an exception at the event with this number."""

    def raise_it(number: int) -> None:
        if number == place:
            raise Interrupt

    return with_events(call, raise_it)


def twin_of(coder: Any) -> Any:
    return pickle.loads(pickle.dumps(coder))


def whole(coder: Any) -> tuple[Any, ...]:
    """Returns all that a coder's calls tell without a change of the coder."""
    told: list[Any] = [pickle.dumps(coder), repr(coder)]
    for name in (
        "pos",
        "get_compressed",
        "num_words",
        "num_valid_bits",
        "get_remainders",
        "maybe_exhausted",
        "is_empty",
    ):
        if hasattr(coder, name):
            found = getattr(coder, name)()
            if type(found) in (tuple, list):
                found = [it.tolist() if hasattr(it, "tolist") else it for it in found]
            told.append(found)
    return tuple(it.tolist() if hasattr(it, "tolist") else it for it in told)


def using(inner: Change, coder: Any, raised: list[Any]) -> None:
    """Makes a call from inside another, and adds its exception to the list, as ``Case.from_inside`` expects."""
    again = raised[:1] == ["again"]
    try:
        inner(coder)
        raised.append(None)
    except RuntimeError as it:
        raised.append(it)
        if again:
            raise


class Number:
    """A number whose conversion to an int or a float makes a call."""

    def __init__(self, of: float, call: Callable[[], None]) -> None:
        self.of, self.call = of, call

    def __index__(self) -> int:
        if not isinstance(self.of, int):
            raise TypeError("no whole number")
        self.call()
        return self.of

    def __float__(self) -> float:
        self.call()
        return float(self.of)


def narrow(symbols: Any) -> Any:
    """Returns symbols as an array of 8 bits, or of 16 bits, if they fit."""
    code = "B" if len(symbols) % 2 else "H"
    return array(code, symbols) if all(0 <= it < 256 for it in symbols) else list(symbols)


class Case:
    """Random models, symbols and changes of one kind of coders."""

    #: The names of the calls.
    encode, decode = "encode_reverse", "decode"
    kinds: tuple[Any, ...] = tuple(KINDS.values())
    #: The forms of lists of symbols, and those of lists of parameters.
    forms: tuple[Callable[[Any], Any], ...] = (list, list, tuple, iter, lambda it: array("q", it), narrow)
    forms_of_parameters: tuple[Callable[[Any], Any], ...] = (list, list, tuple, iter)

    def __init__(self, dice: random.Random) -> None:
        self.dice = dice

    def made(self) -> Any:
        """Returns a coder with some symbols in it."""
        raise NotImplementedError

    def recorded(self, coder: Any, before: int) -> None:
        """Records a position of the coder after a successful call. ``before`` is the earlier number of words."""

    def found(self, coder: Any) -> Any:
        """Returns the words or symbols at each recorded position."""

    def fixed(self) -> tuple[Model, list[int]]:
        """Returns a model with all its parameters, and its symbols that have a weight."""
        dice = self.dice
        weights = by.random_weights(dice, dice.choice((1, 2, 3, 5)))
        some: list[tuple[Model, list[int]]] = [
            (WeightTable(weights), [i for i, it in enumerate(weights) if it]), (Uniform(7), list(range(7))), (Categorical([3, 0, 9]), [0, 1, 2]),
            (dice.choice(self.kinds)(-9, 9, 0.5, dice.uniform(0.1, 5)), list(range(-9, 10))), (CustomModel(abs, None, 0, 0), [0]),
            (WIDE, [0, 5, (1 << 12) - 1]), (CustomModel(lambda x: (x + 4) / 8, None, -4, 4), list(range(-4, 5))),
        ]  # fmt: skip
        return dice.choice(some)

    def each(self, count: int) -> tuple[Model, list[list[Any]], list[int]]:
        """Returns a model with missing parameters, lists of these for so many symbols, and a symbol for each."""
        dice = self.dice
        means, stds = [dice.uniform(-12, 12) for _ in range(count)], [dice.uniform(0.01, 9) for _ in range(count)]
        which = dice.randrange(6)
        if which == 0:
            rows = [by.random_weights(dice, dice.choice((1, 2, 2, 3))) for _ in range(count)]
            return WeightTable(), [rows], [by.random_symbol(dice, it) for it in rows]
        if which == 1:
            rows = [[dice.randrange(1, 9) for _ in range(dice.choice((2, 2, 3)))] for _ in range(count)]
            return Categorical(), [rows], [dice.randrange(len(it)) for it in rows]
        if which == 2:
            return Bernoulli(), [[dice.random() for _ in range(count)]], [dice.randrange(2) for _ in range(count)]
        symbols = [dice.randint(-9, 9) for _ in range(count)]
        if which == 3:
            of = QuantizedMixture(dice.choice(self.kinds)(-9, 9))
            return of, [[[0.25, 0.75]] * count, [[it, -it] for it in means], [[it, it + 1] for it in stds]], symbols
        if which == 4:
            spread: Any = CustomModel(lambda x, k: min(max((x - k) / 40 + 0.5, 0), 1), None, -9, 9)
            return spread, [means], symbols
        return dice.choice(self.kinds)(-9, 9), [means, stds], symbols

    def change(self, encodes: bool) -> Change:
        """Returns a valid call."""
        dice, name = self.dice, self.encode if encodes else self.decode
        if dice.random() < 0.5:
            model, known = self.fixed()
            if dice.random() < 0.5:
                symbol = (dice.choice(known),) if encodes else ()
                return lambda it: getattr(it, name)(*symbol, model)
            symbols = [dice.choice(known) for _ in range(dice.randrange(12))]
            if encodes:
                make = dice.choice(self.forms)
                return lambda it: getattr(it, name)(make(symbols), model)
            return lambda it: getattr(it, name)(model, len(symbols))
        model, given, symbols = self.each(dice.choice((1, 1, 2, 5, 9)))
        if len(symbols) == 1 and dice.random() < 0.7 and (encodes or not model.has_rows or type(model) is Bernoulli):
            one = [it[0] for it in given]
            return lambda it: getattr(it, name)(*symbols[:encodes], model, *one)
        make, form = dice.choice(self.forms), dice.choice(self.forms_of_parameters)
        return lambda it: getattr(it, name)(*([make(symbols)] if encodes else []), model, *map(form, given))

    def refused(self) -> Change:
        """Returns a call that raises an exception."""
        dice, name = self.dice, self.encode
        which = dice.randrange(8)
        model, known = self.fixed()
        symbols: list[Any] = [dice.choice(known) for _ in range(dice.randrange(9))]
        wrong = max(known) + 1 if type(model) is not WeightTable else 5
        if which == 0:
            return lambda it: getattr(it, name)(wrong, model)
        if which == 1:
            return lambda it: getattr(it, name)([wrong, *symbols], model)
        if which == 2:
            return lambda it: getattr(it, name)([*symbols, wrong], model)
        if which == 3:
            return lambda it: getattr(it, name)([1.5, *symbols], model)
        if which == 4:
            return lambda it: getattr(it, self.decode)(model, -1)
        if which == 5:
            return lambda it: getattr(it, name)(0, WeightTable([5]))
        many = dice.randrange(1, 9)
        if which == 6:  # The last part that is encoded is refused. The first has rows of another width.
            rows = [[by.PRECISION], *[[by.PRECISION // 2] * 2] * many, [by.PRECISION]]
            return lambda it: getattr(it, name)([9, *[1] * many, 9], WeightTable(), rows)

        def ends() -> Iterator[int]:
            yield from symbols
            raise KeyError("no more")

        return lambda it: getattr(it, name)(ends(), model)

    def from_inside(self, inner: Change) -> tuple[Callable[[list[Any]], Change], Change]:
        """Returns a call whose arguments use the coder, and the same call with arguments that don't.

        The first gets a list to which it adds what the inner call raised, or None. It raises the same again if the list
        has an item to begin with.
        """
        encode, decode, family = self.encode, self.decode, QuantizedGaussian(-9, 9)

        def number(of: float, coder: Any, raised: list[Any]) -> Any:
            return Number(of, lambda: using(inner, coder, raised))

        def model(coder: Any = None, raised: Any = None) -> Model:
            """Returns a model whose distribution function uses the coder."""

            def cdf(x: float) -> float:
                if coder is not None:
                    using(inner, coder, raised)
                return (x + 4) / 8

            return CustomModel(cdf, None, -4, 4)

        calls: list[tuple[Callable[[list[Any]], Change], Change]] = [
            (
                lambda raised: lambda it: getattr(it, encode)(3, model(it, raised)),
                lambda it: getattr(it, encode)(3, model()),
            ),
            (lambda raised: lambda it: getattr(it, decode)(model(it, raised)), lambda it: getattr(it, decode)(model())),
            (
                lambda raised: lambda it: getattr(it, encode)([1, number(2, it, raised), 3], Uniform(9)),
                lambda it: getattr(it, encode)([1, 2, 3], Uniform(9)),
            ),
            (
                lambda raised: lambda it: getattr(it, encode)(4, family, number(0.5, it, raised), 2.0),
                lambda it: getattr(it, encode)(4, family, 0.5, 2.0),
            ),
            (
                lambda raised: lambda it: getattr(it, decode)(family, [0.5, 1.5], [2.0, number(3.0, it, raised)]),
                lambda it: getattr(it, decode)(family, [0.5, 1.5], [2.0, 3.0]),
            ),
        ]
        return self.dice.choice(calls)


class Ans(Case):
    """Stack coders."""

    make: Any = AnsCoder

    def made(self) -> Any:
        """Returns a coder with words, recorded positions and decoded symbols."""
        coder = self.make([self.dice.randrange(1, by.WORD) for _ in range(self.dice.randrange(1, 40))])
        #: Positions that the coder promises, and the words of the coder there.
        self.positions: list[tuple[tuple[int, int], list[int]]] = []
        self.recorded(coder, 0)
        coder.decode(Uniform(300), self.dice.randrange(60))
        return coder

    def recorded(self, coder: Any, before: int) -> None:
        if coder.pos()[0] > before:
            self.positions = [it for it in self.positions if it[0][0] <= before]
        self.positions = [(coder.pos(), coder.get_compressed().tolist()), *self.positions][:9]

    def found(self, coder: Any) -> Any:
        """Returns whether each recorded position still has its words."""
        here, found = coder.pos(), []
        for position, words in self.positions:
            coder.seek(*position)
            found.append(coder.get_compressed().tolist() == words)
        coder.seek(*here)
        return found == [True] * len(self.positions)


class Encoder(Case):
    """Range encoders."""

    encode, make = "encode", RangeEncoder

    def made(self) -> Any:
        coder = self.make()
        coder.encode([self.dice.randrange(300) for _ in range(self.dice.randrange(60))], Uniform(300))
        return coder

    def change(self, encodes: bool) -> Change:
        return super().change(True)

    def refused(self) -> Change:
        """Returns an encode that raises an exception."""
        while True:
            change = super().refused()
            try:
                change(self.make())
            except AttributeError:
                continue  # A decode.
            except Exception:
                return change

    def from_inside(self, inner: Change) -> tuple[Callable[[list[Any]], Change], Change]:
        """Returns an encode whose arguments use the coder, and the same encode without."""
        while True:
            using, plain = super().from_inside(inner)
            try:
                plain(self.make())
                return using, plain
            except AttributeError:
                pass  # A decode.


class Decoder(Case):
    """Range decoders."""

    make: Any = RangeEncoder

    def made(self) -> Any:
        """Returns a decoder of symbols with recorded positions."""
        encoder, dice = self.make(), self.dice
        symbols, self.positions = [dice.randrange(300) for _ in range(90)], []
        for i in range(0, 90, 9):
            self.positions.append((encoder.pos(), symbols[i : i + 9]))
            encoder.encode(symbols[i : i + 9], Uniform(300))
        coder = encoder.get_decoder()
        coder.decode(Uniform(300), dice.randrange(90))
        return coder

    def found(self, coder: Any) -> Any:
        """Returns whether each recorded position still has its symbols."""
        here, found = coder._state, []
        for position, symbols in self.positions:
            coder.seek(*position)
            found.append(coder.decode(Uniform(300), 9).tolist() == symbols)
        coder._state = here
        return found == [True] * len(self.positions)

    def change(self, encodes: bool) -> Change:
        return super().change(False)

    def refused(self) -> Change:
        model = self.dice.choice((WeightTable([5]), 3, WeightTable([1 << 23, 5])))
        given = self.dice.choice(((), (3,), (-1,), (1.5,)))
        return lambda it: it.decode(model, *given)

    def from_inside(self, inner: Change) -> tuple[Callable[[list[Any]], Change], Change]:
        """Returns a decode whose arguments use the coder, and the same decode without."""
        while True:
            using, plain = super().from_inside(inner)
            try:
                plain(self.make().get_decoder())
                return using, plain
            except AttributeError:
                pass  # An encode.


class Chain(Case):
    """Chain coders."""

    make: Any = ChainCoder

    def made(self) -> Any:
        coder = self.make([self.dice.randrange(1, by.WORD) for _ in range(40)])
        coder.decode(Uniform(300), 20)
        return coder


class SmallAns(Ans):
    make = SmallAnsCoder


class SmallEncoder(Encoder):
    make = SmallRangeEncoder


class SmallDecoder(Decoder):
    make = SmallRangeEncoder


class SmallChain(Chain):
    make = SmallChainCoder


class Bits(Case):
    """The two coders of codewords."""

    def model(self) -> tuple[Any, int]:
        return self.dice.choice(((EncoderHuffmanTree([2, 2, 4, 1, 1]), 5), (EncoderHuffmanTree([1]), 1), (ExpGolomb(), 50)))  # type: ignore[no-any-return]

    def change(self, encodes: bool) -> Change:
        """Returns a valid call."""
        (book, size), dice, name = self.model(), self.dice, self.encode if encodes else self.decode
        if dice.random() < 0.5:
            symbol = (dice.randrange(size),) if encodes else ()
            return lambda it: getattr(it, name)(*symbol, book)
        symbols = [dice.randrange(size) for _ in range(dice.choice((0, 1, 5, 70)))]
        return (
            (lambda it: getattr(it, name)(symbols, book))
            if encodes
            else lambda it: getattr(it, name)(book, len(symbols) // 9)
        )

    def refused(self) -> Change:
        book, dice, name = EncoderHuffmanTree([2, 2, 4, 1, 1]), self.dice, self.encode
        symbols: list[Any] = [dice.randrange(5) for _ in range(dice.choice((0, 1, 5, 70)))]
        place = dice.randrange(len(symbols) + 1)
        wrong = dice.choice((5, -1, 1.5, "1"))
        return lambda it: getattr(it, name)([*symbols[:place], wrong, *symbols[place:]], book)


class Queue(Bits):
    """Queues of bits that are written."""

    encode = "encode"

    def made(self) -> Any:
        coder = QueueEncoder()
        coder.encode([self.dice.randrange(50) for _ in range(self.dice.randrange(60))], ExpGolomb())
        return coder

    def change(self, encodes: bool) -> Change:
        return super().change(True)


class QueueRead(Bits):
    """Queues of bits that are read."""

    def made(self) -> Any:
        encoder = QueueEncoder()
        encoder.encode([self.dice.randrange(50) for _ in range(self.dice.randrange(60))], ExpGolomb())
        coder = QueueDecoder(encoder.get_compressed())
        coder.seek(self.dice.randrange(encoder.pos() + 1))
        return coder

    def change(self, encodes: bool) -> Change:
        place = self.dice.randrange(3)
        return (lambda it: it.seek(place)) if encodes else super().change(False)

    def refused(self) -> Change:
        book, dice = self.model()[0], self.dice
        changes: list[Change] = [
            lambda it: it.seek(-1), lambda it: it.seek(it._state.bits.length + 1), lambda it: it.decode(book, -1), lambda it: it.decode(ExpGolomb(), 300),
        ]  # fmt: skip
        return dice.choice(changes)


class Stack(Bits):
    def made(self) -> Any:
        coder = StackCoder()
        coder.encode_reverse([self.dice.randrange(50) for _ in range(self.dice.randrange(60))], ExpGolomb())
        return coder


class Whole(unittest.TestCase):
    """Random calls of all coders."""

    kinds: tuple[Any, ...] = ()
    calls = CALLS

    def setUp(self) -> None:
        """Chooses the coders, and makes the parts of lists short."""
        self.kinds = self.kinds or (Ans, Ans, Ans, Encoder, Decoder, Chain, Queue, QueueRead, Stack)
        # Short lists have several parts then.
        for module, name, size in (
            (_coding, "_SYMBOLS_AT_A_TIME", 3), (_coding, "_WEIGHTS_AT_A_TIME", 0), (_table, "ROWS_AT_A_TIME", 4), (_finite, "ROWS_AT_A_TIME", 4),
        ):  # fmt: skip
            patch = mock.patch.object(module, name, size)
            patch.start()
            self.addCleanup(patch.stop)

    def test_random_calls(self) -> None:
        """After any call, the coder equals a twin as a whole."""
        self.counts: dict[str, int] = {}
        dice, done = random.Random(82), 0
        while done < self.calls:
            for kind in self.kinds:
                case = kind(dice)
                coder = case.made()
                for _ in range(12):
                    done += self.step(case, coder, twin_of(coder))
        for kind in ("refuse", "interrupt", "want_memory", "inside", "handle"):
            self.assertGreaterEqual(self.counts.get(kind, 0), self.calls // 20, self.counts)

    def test_each_event(self) -> None:
        """Calls that write words over words ahead, interrupted at each of their events, one after another."""
        rare, often, family = WeightTable([1, (1 << 24) - 1]), Uniform(1 << 12), QuantizedGaussian(-9, 9)
        often.table(), rare.table()
        calls: list[Change] = [
            lambda it: it.encode_reverse(0, rare), lambda it: it.encode_reverse(0, WeightTable(), [1, (1 << 24) - 1]),
            lambda it: it.encode_reverse(9, family, -9.0, 0.5), lambda it: it.encode_reverse(9, QuantizedMixture(family), [1.0], [-9.0], [0.5]),
            lambda it: it.encode_reverse([0] * 5, rare), lambda it: it.encode_reverse([9] * 5, family, [-9.0] * 5, [0.5] * 5),
            lambda it: it.encode_reverse([0, 0, 0], WeightTable(), [[1, (1 << 24) - 1], [1, 0, (1 << 24) - 1], [1, (1 << 24) - 1]]),
        ]  # fmt: skip
        stopped = 0
        for change in calls:
            for skipped in range(2):
                place = 0
                while place >= 0:
                    place += 1
                    case, coder = Ans(random.Random(place)), AnsCoder(range(1 << 20, (1 << 20) + 60))
                    for _ in range(4):
                        coder.encode_reverse(coder.decode(often), often), coder.encode_reverse(1, rare)
                    case.positions = []
                    case.recorded(coder, 0)
                    for _ in range(2 + skipped):
                        coder.decode(often, 2), coder.decode(often)
                        case.recorded(coder, coder.pos()[0])
                    coder.encode_reverse(1, rare)
                    kept = coder.pos()[0]
                    while coder.pos()[0] == kept:  # A decode takes a word off, just before an encode writes one.
                        coder.decode(often)
                    case.recorded(coder, kept)
                    twin = twin_of(coder)
                    after, before = twin_of(twin), coder.pos()[0]
                    change(after)
                    try:
                        interrupted(lambda: change(coder), place)
                        place = -1
                    except Interrupt:
                        stopped += after.pos()[0] > before
                    if self.alike(coder, twin, after) is after:
                        case.recorded(coder, before)
                    self.assertTrue(case.found(coder))
                    self.alike(coder, twin if coder.pos() == twin.pos() else after)
        self.assertGreater(stopped, 100)

    def step(self, case: Case, coder: Any, twin: Any) -> int:
        """Makes a valid call, then one of the others. Returns the number of others."""
        dice = case.dice
        self.done(case, coder, twin, case.change(dice.random() < 0.5))
        other = dice.choice((self.refuse, self.interrupt, self.interrupt, self.want_memory, self.inside, self.handle))
        if isinstance(case, Bits) and other == self.inside:
            other = self.interrupt
        other(case, coder, twin)
        self.counts[other.__name__] = self.counts.get(other.__name__, 0) + 1
        if dice.random() < 0.3:
            self.assertTrue(case.found(coder) in (None, True), "words at a position")
        return 1

    def done(self, case: Case, coder: Any, twin: Any, change: Change) -> None:
        """Makes the call of both coders."""
        before = coder.pos()[0] if isinstance(case, Ans) else 0
        results = []
        for it in (coder, twin):
            try:
                found = change(it)
                results.append(found.tolist() if hasattr(found, "tolist") else found)
            except errors.Refusal as refusal:  # Of data that no encoder wrote, or that ended.
                results.append(str(refusal))
        self.assertEqual(*results)
        case.recorded(coder, before)

    def alike(self, coder: Any, *twins: Any) -> Any:
        """Returns the first twin that is equal to the coder as a whole. Fails if there is none."""
        told = whole(coder)
        for twin in twins:
            if whole(twin) == told:
                self.assertTrue(coder == twin)
                return twin
        self.assertEqual(told, whole(twins[0]))

    def refuse(self, case: Case, coder: Any, twin: Any) -> None:
        change = case.refused()
        with self.assertRaises((ValueError, TypeError, KeyError, AttributeError)):
            change(coder)
        self.alike(coder, twin)

    def interrupt(self, case: Case, coder: Any, twin: Any) -> None:
        """Interrupts a call at a random event."""
        change, after = case.change(case.dice.random() < 0.7), twin_of(twin)
        try:
            count = events(lambda: change(after))
        except errors.Refusal:
            return
        before = coder.pos()[0] if isinstance(case, Ans) else 0
        try:
            interrupted(lambda: change(coder), case.dice.randrange(1, count + 1))
        except Interrupt:
            pass
        if self.alike(coder, twin, after) is after:
            case.recorded(coder, before)

    def want_memory(self, case: Case, coder: Any, twin: Any) -> None:
        """Refuses one request for memory of the call."""
        change, after, seen = case.change(case.dice.random() < 0.7), twin_of(twin), 0
        place = case.dice.randrange(1, 6)
        original = _buffers.room

        def room(*given: Any) -> Any:
            nonlocal seen
            seen += 1
            if seen == place:
                raise MemoryError
            return original(*given)

        before = coder.pos()[0] if isinstance(case, Ans) else 0
        try:
            with self.rooms(original, room):
                change(coder)
        except MemoryError:
            self.alike(coder, twin)
        except errors.Refusal:
            self.alike(coder, twin)
        else:
            change(after)
            self.alike(coder, after)
            case.recorded(coder, before)

    def rooms(self, original: Any, room: Any) -> Any:
        """Replaces the function that allocates all memory."""
        from contextlib import ExitStack

        stack = ExitStack()
        for name, module in list(sys.modules.items()):
            if name.startswith("constriction.") and getattr(module, "room", None) is original:
                stack.enter_context(mock.patch.object(module, "room", room))
        return stack

    def inside(self, case: Case, coder: Any, twin: Any) -> None:
        """Makes a call whose arguments call the same coder.

        The inner call raises RuntimeError, and the outer one may go on.
        """
        using, plain = case.from_inside(case.change(case.dice.random() < 0.7))
        after, again = twin_of(twin), case.dice.random() < 0.5
        raised: list[Any] = ["again"] * again
        before = coder.pos()[0] if isinstance(case, Ans) else 0
        try:
            plain(after)
        except errors.Refusal:
            return
        try:
            using(raised)(coder)
            self.assertFalse(again)
        except RuntimeError:
            self.assertTrue(again)
        inner = raised[again:]
        self.assertTrue(inner and all(isinstance(it, RuntimeError) for it in inner), inner)
        if self.alike(coder, twin if again else after) is after:
            case.recorded(coder, before)

    def handle(self, case: Case, coder: Any, twin: Any) -> None:
        """Makes a call, and another one at one of its events. That one raises RuntimeError, or comes first or last."""
        change, other = case.change(case.dice.random() < 0.7), case.change(case.dice.random() < 0.7)
        first, after, last = twin_of(twin), twin_of(twin), twin_of(twin)
        try:
            count = events(lambda: change(after))
            change(last), other(last)
            other(first), change(first)
        except errors.Refusal:
            return
        before, place, told = (
            (coder.pos()[0] if isinstance(case, Ans) else 0),
            case.dice.randrange(1, count + 1),
            list[str](),
        )

        def handler(number: int) -> None:
            if number == place:
                told.append("refused")
                other(coder)
                told[:] = ["done"]

        try:
            with_events(lambda: change(coder), handler)
            found = self.alike(coder, first, last) if told == ["done"] else self.alike(coder, after)
        except RuntimeError:
            self.assertEqual(told, ["refused"])
            found = self.alike(coder, twin, after)
        if found is not twin and isinstance(case, Ans):
            case.positions = []
            case.recorded(coder, before)


class SmallWhole(Whole):
    """The same for words of 16 bits."""

    kinds, calls, test_each_event = (SmallAns, SmallAns, SmallEncoder, SmallDecoder, SmallChain), CALLS // 10, None  # type: ignore[assignment]

    def setUp(self) -> None:
        super().setUp()
        by.at_size(16, 12)
        self.addCleanup(by.at_size, 32, 24)


@unittest.skipUnless(hasattr(signal, "setitimer"), "the system has no timer for a process")
class Signals(unittest.TestCase):
    """Calls that handlers of real signals interrupt."""

    def setUp(self) -> None:
        self.armed = False
        before = signal.signal(signal.SIGALRM, self.alarm)
        self.addCleanup(signal.signal, signal.SIGALRM, before)
        self.addCleanup(signal.setitimer, signal.ITIMER_REAL, 0)

    def alarm(self, *_: Any) -> None:
        if self.armed:
            self.armed = False
            raise Interrupt

    def test_words_ahead(self) -> None:
        """An interrupted encode keeps or replaces the words ahead as a whole."""
        dice, model, symbols = random.Random(83), Uniform(256), [i * 7 % 256 for i in range(2000)]
        coder = AnsCoder()
        coder.encode_reverse(symbols, model)
        end, kept, some = coder.pos(), coder.get_compressed().tolist(), array("q", symbols[:900])
        stopped = 0
        for _ in range(1500):
            coder.decode(model, 1000)
            here = coder.pos()
            try:
                self.armed = True
                signal.setitimer(signal.ITIMER_REAL, dice.uniform(1e-5, 2e-4))
                coder.encode_reverse(some, model)
                self.armed = False
            except Interrupt:
                pass
            if coder.pos() != here:  # It was encoded, and no words are ahead.
                coder.clear()
                coder.encode_reverse(symbols, model)
                continue
            stopped += 1
            coder.seek(*end)
            self.assertEqual(coder.get_compressed().tolist(), kept)
        self.assertGreater(stopped, 50)

    def test_a_handler_that_encodes(self) -> None:
        """A handler's own call is refused while a call of one symbol runs, and succeeds otherwise."""
        coder, model, model_of_handler = AnsCoder(), Uniform(300), Uniform(9)
        wanted: list[tuple[int, Any]] = []

        def handler(*_: Any) -> None:
            try:
                coder.encode_reverse(7, model_of_handler)
                wanted.append((7, model_of_handler))
            except RuntimeError:
                refused.append(1)

        refused: list[int] = []
        signal.signal(signal.SIGALRM, handler)
        try:
            for i in range(4000):
                original = coder._lane.loaded if coder._lane else None

                def step(before: Any) -> Any:
                    """Raises the signal after the C function, and before the coder gets the new state."""
                    signal.raise_signal(signal.SIGALRM)
                    return original(before)  # type: ignore[misc]

                if coder._lane and model._often:
                    with mock.patch.object(coder._lane, "loaded", step):
                        coder.encode_reverse(i % 300, model)
                else:
                    coder.encode_reverse(i % 300, model)
                wanted.append((i % 300, model))
        finally:
            signal.signal(signal.SIGALRM, self.alarm)
        self.assertGreater(len(refused), 3900)
        for symbol, by_model in reversed(wanted):
            self.assertEqual(coder.decode(by_model), symbol)


if __name__ == "__main__":
    unittest.main()
