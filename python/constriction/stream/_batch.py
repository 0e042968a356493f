"""Calls of many coders with one symbol for each, from arrays of numpy, without the cost of lists.

They use the C functions for many coders, and memory that belongs to the coders: heads and lengths twice, the symbols,
and the parameters in units. So the arguments of the C functions are made once. All other cases, and all refusals, go
through the functions for lists.
"""

from __future__ import annotations

from array import array
from collections.abc import Callable
from ctypes import byref, c_int32, c_size_t, c_uint32, c_void_p, sizeof
from functools import partial
from typing import Any, NamedTuple

from .._buffers import numpy_for_answers, seen_numpy
from .._row import count_as_argument, lent_for_good, memory_of, pointer_as_argument
from .._coder import CALLS
from .._rounded import Rounded
from .._single import made
from .._sizes import Size
from .._units import UNITS_OF_ONE
from .model import Model
from .model._quantized import _Quantized as Quantized

__all__ = ["LENGTH", "Batch", "State"]

#: The typecode of C's numbers of words.
LENGTH = "Q" if sizeof(c_size_t) == 8 else "I"
#: For more coders or weights, the calls go through the functions for lists, which let go of the interpreter's lock.
_MOST_CODERS, _MOST_WEIGHTS = 1 << 12, 1 << 16
#: numpy's letters of the types of symbols, which fit 64 bits with a sign.
_WHOLES = frozenset("bBhHiIlq")


class State(NamedTuple):
    """The heads, a row of ``width`` words for each coder, and the number of words that each coder has in use.

    A call doesn't change the heads and lengths of the coders' state, but writes new ones. It may change words that aren't
    in use.
    """

    heads: array[int]
    words: Any
    width: int
    lens: array[int]


class _Set:
    """Memory for heads and lengths, and the C functions that change them, with their arguments."""

    def __init__(self, size: Size, coders: int) -> None:
        self.heads, self.lens = array(size.code_of_states, (0,)) * coders, array(LENGTH, (0,)) * coders
        #: The words to which the C functions are bound, or None.
        self.words: Any = None
        self.calls: tuple[Callable[[], int], ...] = ()


class Batch:
    """The memory for calls of many coders with one symbol for each. The coders' lock protects it."""

    def __init__(self, size: Size, coders: int) -> None:
        """Creates the memory. numpy has to be loaded."""
        numpy = self._numpy = seen_numpy()
        self._size, self._coders = size, coders
        #: The shape of symbols and parameters, or None if no call is taken.
        self._shape = (coders,) if 0 < coders <= _MOST_CODERS else None
        if self._shape is None:
            return
        self._add, self._subtract = numpy.add, numpy.subtract
        self._places, self._first = numpy.empty(coders, "int64"), numpy.zeros(coders, "int64")
        self._first_symbol: int | None = 0
        self._locations, self._scales = numpy.empty(coders, "int64"), numpy.empty(coders, "uint32")
        self._rounded = Rounded((UNITS_OF_ONE, UNITS_OF_ONE), (self._locations, self._scales))
        self._family, self._least, self._greatest = c_uint32(), c_int32(), c_int32()
        self._model: Any = None  # The model of the family that these are of.
        self._weights, self._width, self._needed = c_void_p(), c_size_t(), c_size_t()
        self._table: Any = None  # The weights to which these point.
        self._sets = _Set(size, coders), _Set(size, coders)

    def encode(self, coder: Any, symbols: Any, model: Any, given: tuple[Any, ...]) -> bool:
        """Encodes a symbol onto each coder from an array. Returns whether this succeeded.

        Otherwise the coders are unchanged.
        """
        if symbols.shape != self._shape or symbols.dtype.char not in _WHOLES or not isinstance(model, Model):
            return False
        with coder._lock:
            if coder._busy:
                return False
            try:
                coder._busy = True
                model = model.at(self._size)
                if not (self._take_units(model, given) if given else self._take_table(model)):
                    return False
                self._subtract(symbols, self._first, self._places)
                return bool(self._changed(coder, coder._held, 1 if given else 0))
            finally:
                coder._busy = False

    def decode(self, coder: Any, model: Any, given: tuple[Any, ...]) -> Any:
        """Decodes a symbol from each coder. Returns None if this isn't possible, and the coders are then unchanged."""
        if self._shape is None or not isinstance(model, Model) or numpy_for_answers() is not self._numpy:
            return None
        with coder._lock:
            if coder._busy:
                return None
            try:
                coder._busy = True
                model = model.at(self._size)
                if not (self._take_units(model, given) if given else self._take_table(model)):
                    return None
                return self._changed(coder, coder._held, 3 if given else 2)
            finally:
                coder._busy = False

    def _changed(self, coder: Any, state: State, which: int) -> Any:
        """Calls a C function, and replaces the state. Returns the decoded symbols, or whether an encode succeeded."""
        first, second = self._sets
        it = second if state.heads is first.heads else first  # The state's own heads and lengths stay as they are.
        if it.words is not state.words:
            self._bind(it, state)
        it.heads[:], it.lens[:] = state.heads, state.lens
        if it.calls[which]():
            return None if which > 1 else False
        found = self._add(self._places, self._first) if which > 1 else True
        coder._held = made(State, (it.heads, state.words, state.width, it.lens))
        return found

    def _bind(self, it: _Set, state: State) -> None:
        """Binds C functions to the words of a state."""
        it.words = None  # After an interrupt, some functions may be bound to other memory.
        count, (words, capacity) = count_as_argument(self._coders), lent_for_good(state.words)
        lead = memory_of(it.heads), count, words, capacity, memory_of(it.lens), count
        locations, scales, places = (_place_of(them) for them in (self._locations, self._scales, self._places))
        units = self._family, self._least, self._greatest, locations, count, scales, count, places, count
        table, needed = (self._weights, self._width, places, count), byref(self._needed)
        names = (("encode", "_reverse", (needed,)), ("decode", "", ()))
        it.calls = tuple(
            partial(self._size.short_function(f"ans_lanes_{name}{kind}{end}"), *lead, *arguments, *behind)
            for name, end, behind in names
            for kind, arguments in (("", table), ("_quantized", units))
        )
        it.words = state.words

    def _take_first(self, first: int) -> None:
        """Takes the least symbol of a model."""
        if first != self._first_symbol:
            self._first_symbol = None  # After an interrupt the memory may have parts of another one.
            self._first.fill(first)
            self._first_symbol = first

    def _take_table(self, model: Any) -> bool:
        """Takes the weights of a model that has all its parameters. Returns whether this is possible."""
        if model.missing:
            return False
        weights = model.table()
        if not 0 < len(weights) <= _MOST_WEIGHTS:
            return False
        self._take_first(model.first)
        self._table = weights
        self._weights.value, self._width.value = weights.buffer_info()[0], len(weights)
        return True

    def _take_family(self, model: Any) -> bool:
        """Takes a family of distributions over a range. Returns whether this is possible."""
        self._model = None
        if not isinstance(model, Quantized) or len(model.missing) != 2 or model._count == 1 or model._origin:
            return False
        self._family.value, self._least.value = model._family, model._least
        self._greatest.value = model._least + model._count - 1
        self._model = model
        return True

    def _take_units(self, model: Any, given: tuple[Any, ...]) -> bool:
        """Takes a location and a scale for each coder, in units. Returns whether this is possible."""
        if len(given) != 2 or type(given[0]) is type(given[1]) is float:
            return False
        if model is not self._model and not self._take_family(model):
            return False
        if not self._rounded.take(given):
            return False
        self._take_first(model.first)
        return True


CALLS.update((Batch.encode.__code__, Batch.decode.__code__))


def _place_of(table: Any) -> Any:
    """Returns the address of a numpy array as an argument. The array has to exist as long as the argument."""
    return pointer_as_argument(table.ctypes.data)
