"""Many stack coders, for batches: one call codes a row of symbols with each of the coders."""

from __future__ import annotations

from array import array
from collections.abc import Iterable, Iterator
from ctypes import byref, c_size_t
from typing import Any, SupportsIndex, TypeVar

from .. import _buffers, errors
from .._answers import AS_USUAL, Wanted, shifted
from .._buffers import ANSWER, OWN, SYMBOL, Answer, List, Numbers, Parameter, lent, listed, numpy_module, room
from .._coder import Coder
from .._coding import _explained as explained
from .._coding import _other_lengths as other_lengths
from .._coding import model_wanted

from .._numbers import (
    as_numpy, count_of, is_one, is_row, is_whole, items_of, list_wanted, listed_of, nested, sequence_of, whole,
)  # fmt: skip
from .._places import places_of
from .._shapes import Shape, aligned, shape_of
from .._sizes import LARGE, SMALL, Size
from .._words import swapped
from ..errors import ImpossibleSymbolError, NoSpaceError, Refusal, WrongLengthError, impossible_in_lane
from ._batch import LENGTH, Batch, State
from .model import Model

__all__ = ["AnsCoders", "SmallAnsCoders"]

Self = TypeVar("Self", bound="AnsCoders")


def _widened(state: State, width: int, size: Size) -> State:
    """Returns an equal state with rows of ``width`` words."""
    words = room(size.code, len(state.heads) * width, OWN)
    new, old = memoryview(words), memoryview(state.words)
    for j, length in enumerate(state.lens):
        new[j * width : j * width + length] = old[j * state.width : j * state.width + length]
    return state._replace(words=words, width=width)


def _is_nested(first: Any, core: int) -> bool:
    """Returns whether the first item of a list is a list of numbers, or a list of rows where ``core`` is 1."""
    return not is_one(first) and (not core or not is_row(first))


def _want_rows(model: Model) -> None:
    """Raises TypeError if the model has several tables, because no C function for many coders takes indexes."""
    if model.has_wholes:
        raise TypeError("expected a model of one table, or a row for each symbol, got rows with indexes")


def _row(numbers: Any, core: int) -> Any:
    """Returns the numbers of one coder as a list, or rows of weights that are an array as this array.

    Raises TypeError for a number, a text, bytes, a dict, a set, or a masked array.
    """
    if is_one(numbers):
        raise TypeError(f"expected a row of numbers for each coder, got {type(numbers).__name__}")
    table = as_numpy(numbers) if core else None
    return listed_of(numbers) if table is None else table


def _rows(numbers: Any, count: int, core: int = 0) -> tuple[Any, Shape]:
    """Returns a list of numbers for each of ``count`` coders as a flat list or as an array, and its shape.

    The shape is ``(count,)`` or ``(count, T)``. The numbers are an array, or a list whose items may be lists. ``core``
    is 1 if a row of weights is in the place of each number.
    """
    if type(numbers) is _buffers.array_class:
        return numbers, numbers.shape
    numbers = numbers if as_numpy(numbers) is not None else sequence_of(numbers)
    if isinstance(numbers, memoryview) and as_numpy(numbers) is None:
        if numbers.ndim == 1:
            return numbers, (len(numbers),)
        numbers = nested(numbers)
    shape = shape_of(numbers)
    if as_numpy(numbers) is None and len(numbers) and _is_nested(next(iter(numbers)), core):
        rows = [_row(it, core) for it in items_of(numbers)]
        lengths = {len(it) for it in rows}
        if len(lengths) != 1:
            raise WrongLengthError(f"expected rows of one length, got the lengths {sorted(lengths)}")
        shape, numbers = (len(rows), lengths.pop()), [it for row in rows for it in row]
    return numbers, shape


def _array(numbers: Any, shape: Shape) -> Any:
    """Returns a flat list of numbers, or of rows, as a numpy array of this shape, or of rows of it."""
    table = numpy_module().asarray(numbers)
    return table.reshape(*shape, *table.shape[1:])


def _located(model: Model, given: Any, count: int) -> Any:
    """Returns parameters of ``count`` symbols for C functions. Returns None if the model takes them in another way."""
    located = model.located(given)
    if located is not None and located.symbols != count:
        raise other_lengths(count, located.symbols, "sets of parameters")
    return located


def _tiled(numbers: Any, shape: Shape) -> Any:
    """Returns a list with a number for each place of a row as a list with a number for each place of each row."""
    is_row_of_all = not is_one(numbers) and len(numbers) == shape[1]
    return [*items_of(numbers)] * shape[0] if is_row_of_all else numbers


class AnsCoders(Coder):
    """Independent stack coders (ANS) with words of 32 bits, for the items of a batch.

    One call codes a row of symbols with each coder. Symbols have the shape ``(n,)`` or ``(n, T)`` for ``n`` coders, and
    row ``j`` belongs to coder ``j``. Each coder has the same words as an :class:`AnsCoder` that codes the row alone.

    >>> from constriction.stream.model import QuantizedGaussian
    >>> coders, heights = AnsCoders(3), QuantizedGaussian(120, 220, 172.5, 9.25)
    >>> coders.encode_reverse([[181, 164], [170, 193], [160, 175]], heights)
    >>> coders[1].decode(heights, amt=2).tolist()
    [170, 193]
    >>> coders.decode(heights).tolist()
    [181, 170, 160]
    """

    _size = LARGE

    def __init__(self, coders: SupportsIndex) -> None:
        """Creates ``coders`` empty coders."""
        count = count_of(coders)
        size = self._size
        heads, lens = array(size.code_of_states, (0,)) * count, array(LENGTH, (0,)) * count
        self._begin(State(heads, room(size.code, 0, OWN), 0, lens))

    @classmethod
    def from_compressed(cls: type[Self], compressed: Iterable[List]) -> Self:
        """Imports a coder from each list of words, which ``get_compressed`` returned.

        Raises :class:`InvalidDataError` if the last word of a list is 0.
        """
        from .stack import AnsCoder, SmallAnsCoder

        kind = SmallAnsCoder if cls._size is SMALL else AnsCoder
        states = []
        list_wanted(compressed, "lists of words")
        for j, given in enumerate(compressed):
            try:
                states.append(kind(given)._state)
            except Refusal as refused:
                raise type(refused)(f"{refused} In the words of coder {j}.") from None
        it = cls(0)
        width = max((state.words.length for state in states), default=0)
        words = room(cls._size.code, len(states) * width, OWN)
        for j, state in enumerate(states):
            part = memoryview(state.words.memory)[: state.words.length]
            memoryview(words)[j * width : j * width + len(part)] = part
        heads = array(cls._size.code_of_states, (state.head for state in states))
        it._state = State(heads, words, width, array(LENGTH, (state.words.length for state in states)))
        return it

    def encode_reverse(self, symbols: Any, model: Model, *parameters: Parameter) -> None:
        """Encodes a row of symbols onto each coder, from the last symbol of the row to the first.

        ``symbols`` has the shape ``(n,)``, a symbol for each coder, or ``(n, T)``. If the model has missing parameters,
        pass an array or a list of each after the model, which broadcasts to this shape.

        Raises the exceptions of :meth:`AnsCoder.encode_reverse`, which name the symbol, its place in the row and the
        coder. After an error no coder is changed.
        """
        if type(symbols) is _buffers.array_class:
            if (self._lane or self._made_lane()).encode(self, symbols, model, parameters):
                return
        self._changed(lambda state: (self._encoded(state, symbols, model, parameters), None))

    def _made_lane(self) -> Any:
        self._lane: Any = Batch(self._size, len(self))
        return self._lane

    def _copied(self) -> State:
        """Returns the state at one time, with heads and lengths that no later call changes. Doesn't wait for a call."""
        while True:
            state: State = self._held
            copied = state._replace(heads=state.heads[:], lens=state.lens[:])
            if self._held is state:  # A call writes over heads and lengths only after another has replaced the state.
                return copied

    def _encoded(self, state: State, symbols: Any, model: Model, given: tuple[Any, ...]) -> State:
        if not isinstance(model, Model):
            model_wanted(model, symbols)
        model, coders = model.at(self._size), len(state.heads)
        _want_rows(model)
        symbols, shape = _rows(symbols, coders)
        if len(shape) not in (1, 2) or shape[0] != coders:
            raise WrongLengthError(f"expected symbols of shape ({coders},) or ({coders}, T), got {shape}")
        table = as_numpy(symbols)
        symbols = symbols if table is None else table.ravel()
        given = self._aligned(model, given, shape)[0] if given else ()
        count = len(symbols)
        try:
            kind, models = "", ()  # type: tuple[str, tuple[Any, ...]]
            if given and model.has_rows:
                kind, models = model.rows_form, self._packed(model, given, count)
            elif given:
                located = _located(model, given, count)
                if located is None:
                    lefts, ps = model.intervals(symbols, given)
                    return self._encode("_intervals", state, count, (*listed(lefts), *listed(ps)))
                kind, models = located.form, located.lent(slice(0, count))
            else:
                models = listed(model.table())
            if type(symbols) is _buffers.array_class and symbols.dtype == numpy_module().int64:
                own = symbols - model.first  # A copy: other code may change the array during the call.
                return self._encode(kind, state, count, (*models, lent(own), count))
            places = places_of(symbols, model.first)
            try:
                if len(places) != count:  # A number's own method has changed the list.
                    raise WrongLengthError(f"expected {count} symbols, as when the call began, got {len(places)}")
                return self._encode(kind, state, count, (*models, places.lent(slice(0, count)), count))
            finally:
                places.close()
        except Refusal as refused:
            raise self._explained(refused, symbols, model, given, shape) from None

    def _explained(self, refused: Refusal, symbols: Any, model: Model, given: Any, shape: Shape) -> Refusal:
        """Returns an exception that names the coder, and the place in its row."""
        found = explained(refused, symbols, model, given)
        if isinstance(found, ImpossibleSymbolError) and found.place is not None:
            return impossible_in_lane(found, shape[1] if len(shape) == 2 else 1)
        return found

    def _aligned(self, model: Model, given: tuple[Any, ...], shape: Shape | None) -> tuple[Any, Shape]:
        """Returns parameters as flat lists, and the shape that they have in common with the symbols."""
        core, found = model.core, []  # type: tuple[int, list[tuple[Any, bool]]]
        own: Any = shape or getattr(given[0], "shape", ())
        if not core and len(own) == 1 and all(type(it) is _buffers.array_class and it.shape == own for it in given):
            return given, own
        for it in given:
            numbers, own = (it, ()) if is_one(it) else _rows(it, 0, core)
            is_nested = len(own) == 2 and as_numpy(numbers) is None
            if is_nested:
                if shape is not None and shape != own:
                    raise WrongLengthError(f"expected parameters of shape {shape}, got {own}")
                shape = own
            found.append((numbers, is_nested))
        lists = [numbers for numbers, _ in found]
        if shape is not None and len(shape) == 2:
            if all(is_one(it) or as_numpy(it) is None for it in lists):
                lists = lists if core else [_tiled(it, shape) for it in lists]
                return aligned(core, lists, (shape[0] * shape[1],))[0], shape
            lists = [_array(numbers, shape) if is_nested else numbers for numbers, is_nested in found]
        flat, common = aligned(core, lists, shape)
        return flat, common if shape is None else shape

    def _packed(self, model: Model, given: tuple[Any, ...], count: int) -> tuple[Any, ...]:
        """Returns the rows of weights or counts of all symbols as arguments of a C function."""
        groups = list(model.rows(given))
        if sum(rows for _, _, rows in groups) != count:
            rows = sum(rows for _, _, rows in groups)
            text = f"as many rows of {model.missing[0]} as symbols, got {rows} rows and {count} symbols"
            raise WrongLengthError(f"expected {text}")
        if len(groups) == 1:
            weights, width, _ = groups[0]
            return (*listed(weights), width)
        width = max((width for _, width, _ in groups), default=1)
        if any(own != width for _, own, _ in groups):
            widths = sorted({own for _, own, _ in groups})
            raise WrongLengthError(f"expected rows of one width, got the widths {widths}")
        weights = groups[0][0][:0] if groups else array(self._size.code)
        for some, _, _ in groups:
            weights += some
        return (*listed(weights), width)

    def _encode(self, kind: str, state: State, count: int, arguments: tuple[Any, ...]) -> State:
        coders = len(state.heads)
        while True:
            heads, lens, needed = state.heads[:], state.lens[:], c_size_t(0)
            lead = *heads.buffer_info(), lent(state.words), coders * state.width, *lens.buffer_info()
            try:
                self._size.function(f"ans_lanes_encode{kind}_reverse")(*lead, *arguments, byref(needed))
            except NoSpaceError:
                state = _widened(state, max(needed.value, 2 * state.width, 4), self._size)
                continue
            return State(heads, state.words, state.width, lens)

    def decode(
        self, model: Model, *parameters: Any, amt: SupportsIndex | None = None, dtype: Any = None, out: Any = None
    ) -> Answer:
        """Decodes a symbol from each coder, ``amt`` symbols from each, or one for each set of parameters.

        Returns an array of shape ``(n,)``, or ``(n, amt)``. Parameters broadcast with each other to the shape ``(n,)``
        or ``(n, T)``, and the answer has this shape. Without numpy the answer for ``(n, T)`` is a flat list of ``n``
        rows. ``dtype`` is numpy's integer type of the answer. Or ``out`` is a numpy array of this shape, which gets the
        symbols and is returned.
        """
        wanted = AS_USUAL if dtype is None and out is None else Wanted(dtype, out)
        if amt is None and wanted is AS_USUAL and _buffers.array_class is not None and len(parameters) != 1:
            symbols: Any = (self._lane or self._made_lane()).decode(self, model, parameters)
            if symbols is not None:
                return symbols  # type: ignore[no-any-return]
        if len(parameters) == 1 and amt is None and isinstance(model, Model) and not model.missing:
            # A model of a function may have parameters or none. A single whole number is then a number of symbols.
            if model.complete or is_whole(parameters[0]):
                (amt,), parameters = parameters, ()
        if amt is not None and parameters:
            raise TypeError("expected parameters or a number of symbols, got both")
        return self._changed(lambda state: self._decoded(state, model, parameters, amt, wanted))  # type: ignore[no-any-return]

    def _decoded(
        self, state: State, model: Model, given: tuple[Any, ...], amt: Any, wanted: Wanted
    ) -> tuple[State, Any]:
        if not isinstance(model, Model):
            model_wanted(model)
        model, coders = model.at(self._size), len(state.heads)
        _want_rows(model)
        try:
            if not given:
                shape = (coders,) if amt is None else (coders, count_of(amt))
                if wanted is not AS_USUAL:
                    wanted.check(shape)
                weights = model.table()
                symbols = room(SYMBOL, coders * (1 if amt is None else shape[1]), ANSWER)
                state = self._decode("", state, (*listed(weights), *listed(symbols)))
            else:
                given, shape = self._aligned(model, given, None)
                if len(shape) not in (1, 2) or shape[0] != coders:
                    raise WrongLengthError(f"expected parameters of shape ({coders},) or ({coders}, T), got {shape}")
                if wanted is not AS_USUAL:
                    wanted.check(shape)
                state, symbols = self._decoded_by(state, model, given, shape)
        except Refusal as refused:
            raise explained(refused, (), model, given) from None
        symbols = shifted(symbols, model.first)
        if wanted is not AS_USUAL:
            return state, wanted.given(symbols, shape)
        if type(symbols) is _buffers.array_class:
            return state, symbols if len(shape) == 1 else symbols.reshape(shape)
        return state, AS_USUAL.given(symbols, shape if numpy_shaped(symbols) else shape[:1])

    def _decoded_by(self, state: State, model: Model, given: Any, shape: Shape) -> tuple[State, Any]:
        """Returns the state after a decode of a symbol for each set of parameters, and the symbols."""
        count = shape[0] * (shape[1] if len(shape) == 2 else 1)
        if model.has_rows:
            models = self._packed(model, given, count)
            symbols = room(SYMBOL, count, ANSWER)
            return self._decode(model.rows_form, state, (*models, *listed(symbols))), symbols
        located = _located(model, given, count)
        if located is not None:
            symbols = room(SYMBOL, count, ANSWER)
            models = located.lent(slice(0, count))
            return self._decode(located.form, state, (*models, *listed(symbols))), symbols
        return self._decoded_one_by_one(state, model, given, count)

    def _decoded_one_by_one(self, state: State, model: Model, given: Any, count: int) -> tuple[State, Any]:
        """Does the same for models that are functions of Python: one symbol of each coder at a time."""
        sets, coders = model.parameters(given), len(state.heads)
        symbols, time = room(SYMBOL, count, ANSWER), count // max(coders, 1)
        for t in range(time):
            weights, first = array(self._size.code), array(SYMBOL, (0,)) * coders
            for j in range(coders):
                k, three = model.around(state.heads[j] & self._size.total - 1, sets[j * time + t])
                weights += three
                first[j] = k
            some = room(SYMBOL, coders)
            state = self._decode("_each", state, (*listed(weights), 3, *listed(some)))
            for j in range(coders):
                symbols[j * time + t] = first[j] + some[j] - 1
        return state, symbols

    def _decode(self, kind: str, state: State, arguments: tuple[Any, ...]) -> State:
        heads, lens = state.heads[:], state.lens[:]
        lead = *heads.buffer_info(), lent(state.words), len(heads) * state.width, *lens.buffer_info()
        self._size.function(f"ans_lanes_decode{kind}")(*lead, *arguments)
        return State(heads, state.words, state.width, lens)

    def __len__(self) -> int:
        """Returns the number of coders."""
        return len(self._state.heads)

    def __getitem__(self, lane: SupportsIndex) -> Any:
        """Returns an :class:`AnsCoder` with a copy of the head and the words of coder ``lane``."""
        j, coders = whole(lane), len(self._state.heads)
        if not -coders <= j < coders:
            raise IndexError(f"expected the number of one of {coders} coders, got {j}")
        return self._alone(*self._asked(lambda state: self._plain_lane(state, j % coders)))

    def __iter__(self) -> Iterator[Any]:
        return (self[j] for j in range(len(self)))

    def _alone(self, data: bytes, head: int) -> Any:
        """Returns an :class:`AnsCoder` of its own from the words and the head that ``_plain_lane`` returned."""
        from .stack import AnsCoder, SmallAnsCoder

        it = (SmallAnsCoder if self._size is SMALL else AnsCoder)()
        it._state = it._unplain((data, head, len(data) // (self._size.bits // 8)))
        return it

    def _plain_lane(self, state: State, j: int) -> tuple[Any, ...]:
        """Returns the plain state of an :class:`AnsCoder` with the head and the words of coder ``j``."""
        start, length = j * state.width, state.lens[j]
        part = array(self._size.code, memoryview(state.words)[start : start + length].tobytes())
        return swapped(part).tobytes(), state.heads[j]

    def get_compressed(self) -> list[Answer]:
        """Returns a copy of each coder's words, followed by the words of its head. The coders are unchanged."""
        lanes = self._asked(self._plain)  # All at one time.
        return [self._alone(*it).get_compressed() for it in lanes]

    def num_words(self) -> int:
        """Returns the number of words that ``get_compressed`` returns, of all coders together."""
        state = self._copied()
        return sum(state.lens) + sum((it.bit_length() + self._size.bits - 1) // self._size.bits for it in state.heads)

    def is_empty(self) -> bool:
        """Returns whether no coder has words, and each head is 0."""
        state = self._copied()
        return not any(state.heads) and not any(state.lens)

    def clear(self) -> None:
        """Removes all symbols of all coders."""

        def cleared(state: State) -> tuple[State, None]:
            coders = len(state.heads)
            heads, lens = array(self._size.code_of_states, (0,)) * coders, array(LENGTH, (0,)) * coders
            return state._replace(heads=heads, lens=lens), None

        self._changed(cleared)

    def _said(self, state: State) -> str:
        return f"{len(state.heads)} coders with {sum(self._copied().lens)} words"

    def _plain(self, state: State) -> tuple[Any, ...]:
        return tuple(self._plain_lane(state, j) for j in range(len(state.heads)))

    def _unplain(self, plain: tuple[Any, ...]) -> State:
        size = self._size
        lanes = [array(size.code, data) for data, _ in plain]
        width = max(map(len, lanes), default=0)
        words = room(size.code, len(lanes) * width, OWN)
        for j, lane in enumerate(lanes):
            memoryview(words)[j * width : j * width + len(lane)] = memoryview(swapped(lane))
        heads = array(size.code_of_states, (head for _, head in plain))
        return State(heads, words, width, array(LENGTH, map(len, lanes)))


def numpy_shaped(symbols: Any) -> bool:
    """Returns whether symbols are a numpy array, which can have any shape."""
    return not isinstance(symbols, (array, Numbers))


class SmallAnsCoders(AnsCoders):
    """Does the same as :class:`AnsCoders` with words of 16 bits, as :class:`SmallAnsCoder` has.

    >>> from constriction.stream.model import WeightTable
    >>> coders, table = SmallAnsCoders(2), WeightTable([1024, 3072])
    >>> coders.encode_reverse([[0, 1, 1], [1, 0, 1]], table)
    >>> coders[1].decode(table, amt=3).tolist()
    [1, 0, 1]
    """

    _size = SMALL
