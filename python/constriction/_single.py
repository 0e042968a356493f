"""Calls with one symbol, without the cost of a list. They use the same C functions, and memory that belongs to a coder.

A model that is used often keeps its sums of weights. So a decode searches for the symbol of the coder's quantile, and
passes three weights: the sum of the weights before it, its own weight, and the sum of the weights after it. An encode
passes an interval. All other cases go through the functions for lists, which report what is wrong: a symbol that the
model doesn't have, weights with a wrong sum, or a model of floats with parameters.

The arguments of the C functions are made once. Each call reads the memory to which they point.
"""

from __future__ import annotations

from array import array
from bisect import bisect_right
from collections.abc import Callable
from ctypes import byref, c_int32, c_int64, c_size_t, c_uint32, c_void_p
from functools import partial
from operator import is_
from typing import Any

from ._buffers import SYMBOL
from ._row import Components, QuickRow, Row, count_as_argument, memory_of, pointer_as_argument
from ._sizes import LARGE, Size
from .stream.model._base import COUNTS, ENDS, FLOATS, FORMS, MIXED, QUICK, ROW, SHARED, UNITS, Model

__all__ = ["Lane", "made"]

_Way = Callable[[], int]
#: Creates an instance of a subclass of ``tuple`` without a call of its ``__new__``.
made: Any = tuple.__new__
#: The greatest index of a symbol that fits the C functions' type with a sign. They refuse an index past their table.
_LAST = (1 << 63) - 1
#: A coder keeps memory for rows of at most so many widths.
_MOST_WIDTHS = 8
#: Longer rows go through the functions for lists, which let go of the interpreter's lock.
_MOST_WEIGHTS = 1 << 16


class Lane:
    """The memory for a coder's calls with one symbol. Each coder has one, and the coder's lock protects it."""

    def __init__(self, size: Size, encode: str, decode: str, behind_decode: tuple[Any, ...] = ()) -> None:
        """Creates the memory for words of a size.

        The names of the functions have a gap for the kind of model.
        """
        self.size, self._place, code = size, array(SYMBOL, (0,)), size.code
        self._interval, self._three = array(code, (0, 0)), array(code, (0, 0, 0))
        self._location, self._scale, self._row, self._width = c_int64(), c_uint32(), c_void_p(), c_size_t()
        self._family, self._least, self._greatest, self._model = c_uint32(), c_int32(), c_int32(), None
        self._rows: dict[tuple[int, bool], Any] = {}
        self._taken: Any = None  # The row of this dict to which the two arguments above point.
        self._components: Components | None = None
        self._mixed = c_size_t(), c_void_p(), c_void_p(), c_void_p()
        one, needed = count_as_argument(1), byref(c_size_t())
        symbol, left = (memory_of(self._place), one), self._interval.buffer_info()[0]
        interval = pointer_as_argument(left), one, pointer_as_argument(left + self._interval.itemsize), one
        family = self._family, self._least, self._greatest, byref(self._location), one, byref(self._scale), one
        row = self._row, self._width
        count, weights, locations, scales = self._mixed
        mixture = *family[:3], count, weights, count, locations, count, scales, count
        models: dict[int, tuple[str, tuple[Any, ...]]] = {
            UNITS: ("_quantized", family), MIXED: ("_mixture", mixture), ROW: ("", row), COUNTS: ("_counts", (*row, self._width)),
        }  # fmt: skip
        models[SHARED], models[FLOATS], models[QUICK] = models[ROW], models[ROW], models[COUNTS]
        three = memory_of(self._three), count_as_argument(3)
        #: For each form of models the name of the C function, and the arguments after those of the state.
        self._encodings = {it: (encode.format(kind), (*model, *symbol, needed)) for it, (kind, model) in models.items()}
        self._decodings = {
            it: (decode.format(kind), (*model, *symbol, *behind_decode)) for it, (kind, model) in models.items()
        }
        self._encodings[ENDS] = encode.format("_intervals"), (*interval, needed)
        self._decodings[ENDS] = decode.format(""), (*three, *symbol, *behind_decode)
        #: For each form of models the C function with its arguments, or None before its first call with these words.
        self._encoders: list[_Way | None] = [None] * len(FORMS)
        self._decoders: list[_Way | None] = [None] * len(FORMS)

    #: The words to which the C functions are bound, or None, and the arguments for the state.
    _bound: Any = None
    _lead: tuple[Any, ...] = ()
    #: The state in this memory, or None if it isn't known.
    _kept: Any = None
    #: Whether the next encode, or the next decode, can do without ``load``, because there is room for its word.
    _encodes: int = 0
    _decodes: int = 0

    def lead(self, *words: Any) -> tuple[Any, ...]:
        """Returns the arguments for a state with these words: memory, and the number of words if no call changes it."""
        raise NotImplementedError

    def bind(self, *words: Any) -> None:
        """Binds the C functions to memory with words."""
        if self._bound is not None and all(map(is_, self._bound, words)):
            return
        self._bound = None  # After an interrupt, some functions may be bound to other memory.
        for ways in (self._encoders, self._decoders):
            ways[:] = [None] * len(FORMS)
        self._lead = self.lead(*words)
        self._bound = words

    def _bind(self, form: int, encodes: bool) -> _Way:
        """Binds the C function for a form of models to the words, and returns it with its arguments."""
        ways, (name, rest) = (
            (self._encoders, self._encodings[form]) if encodes else (self._decoders, self._decodings[form])
        )
        way = ways[form] = partial(self.size.short_function(name), *self._lead, *rest)
        return way

    def load(self, state: Any, encodes: bool) -> Any:
        """Writes a state, or a plain tuple with the same items, to this memory. Returns an equal state.

        An encode, or a decode, then finds room for its word, and the state doesn't depend on the words in this room.
        """
        raise NotImplementedError

    def loaded(self, before: Any) -> Any:
        """Returns the state that is in this memory after a call, or a plain tuple with the same items.

        The call notes whether there is room for the next one.
        """
        raise NotImplementedError

    def quantile(self, state: Any) -> int:
        """Returns the quantile that selects the next symbol, or a number past all quantiles if there is none."""
        raise NotImplementedError

    def encode(self, coder: Any, symbol: int, model: Model, given: tuple[Any, ...]) -> bool:
        """Encodes a symbol. Returns whether this succeeded. Otherwise the coder is unchanged."""
        with coder._lock:
            if coder._busy:
                return False
            try:
                coder._busy = True
                if self.size is not LARGE:
                    model = model.at(self.size)
                if given:
                    row = self._taken
                    order = row is not None and model is row.of and row.take_again(given) or model.alone_by(given)
                else:
                    order = model._often or model.alone()
                if order is None:
                    return False
                form, first, second = order
                place = symbol - model.first
                if not 0 <= place < (len(first) - 1 if form == ENDS else _LAST):
                    return False
                state, kept = coder._held, self._kept
                self._kept = None  # After an interrupt the state in this memory isn't known.
                if state is not kept or not self._encodes:
                    state = coder._held = self.load(state, True)
                if form == ENDS:
                    interval = self._interval
                    left = interval[0] = first[place]
                    interval[1] = first[place + 1] - left
                else:
                    self._place[0] = place
                    if form == UNITS and model is self._model:
                        self._location.value, self._scale.value = first, second
                    elif first is not None and self._take(form, model, first, second):
                        return False
                encode = self._encoders[form] or self._bind(form, True)
                if encode():
                    return False
                self._kept = coder._held = self.loaded(state)
                return True
            finally:
                coder._busy = False

    def decode(self, coder: Any, model: Model, given: tuple[Any, ...]) -> int | None:
        """Decodes the next symbol. Returns None if this isn't possible, and the coder is then unchanged."""
        with coder._lock:
            if coder._busy:
                return None
            try:
                coder._busy = True
                if self.size is not LARGE:
                    model = model.at(self.size)
                if given:
                    row = self._taken
                    order = row is not None and model is row.of and row.take_again(given) or model.alone_by(given)
                else:
                    order = model._often or model.alone()
                if order is None:
                    return None
                form, first, second = order
                state, kept, place = coder._held, self._kept, 0
                self._kept = None  # After an interrupt the state in this memory isn't known.
                if state is not kept or not self._decodes:
                    state = coder._held = self.load(state, False)
                if form == ENDS:
                    place = bisect_right(first, self.quantile(state))
                    if place == len(first):
                        return None
                    three, left, end = self._three, first[place - 1], first[place]
                    three[0], three[1], three[2] = left, end - left, first[-1] - end
                    place -= 2
                elif form == UNITS and model is self._model:
                    self._location.value, self._scale.value = first, second
                elif first is not None and self._take(form, model, first, second):
                    return None
                decode = self._decoders[form] or self._bind(form, False)
                if decode():
                    return None
                place += self._place[0] + model.first
                self._kept = coder._held = self.loaded(state)
                return place
            finally:
                coder._busy = False

    def _take(self, form: int, model: Any, first: Any, second: Any) -> int:
        """Takes the parameters of a symbol's model. Returns 0, or another number if they are refused."""
        if form == UNITS:
            self._take_family(model, model)
            self._location.value, self._scale.value = first, second
            return 0
        if form == MIXED:
            components = self._components
            if components is None or components.width != second or model is not self._model:
                components = self._take_components(model, second)
            return components.take(first)
        width, row = len(first), self._taken
        if width > _MOST_WEIGHTS:
            return 1
        if form == ROW or form == COUNTS:
            self._taken = None
            self._row.value, self._width.value = first.buffer_info()[0], width
            return 0
        if row is None or row.width != width or row.is_quick is not (form == QUICK):
            row = self._take_width(width, form == QUICK)
        refused: int = row.take_counts(first) if form == SHARED else row.take_floats(first, model, form)
        return refused

    def _take_width(self, width: int, is_quick: bool) -> Any:
        """Takes the memory for rows of a width."""
        row: Any
        self._taken, row = None, self._rows.get((width, is_quick))
        if row is None:
            if len(self._rows) >= _MOST_WIDTHS:
                self._rows.clear()
            row = self._rows[width, is_quick] = (QuickRow if is_quick else Row)(self.size, width)
        self._row.value, self._width.value = row.place, width
        self._taken = row
        return row

    def _take_family(self, model: Any, of: Any) -> None:
        self._model, greatest = None, of._least + of.size - 1
        self._family.value, self._least.value, self._greatest.value = of._family, of._least, greatest
        self._model = model

    def _take_components(self, model: Any, width: int) -> Components:
        """Takes the family of a mixture, and the memory for so many components."""
        if model is not self._model:
            self._take_family(model, model._components)
        components = self._components
        if components is None or components.width != width:
            self._components, components = None, Components(width)
            count, *places = self._mixed
            count.value = width
            for place, found in zip(places, components.places):
                place.value = found
            self._components = components
        return components
