"""Memory for the parameters of a call with one symbol: floats with their weights, or the components of a mixture."""

from __future__ import annotations

from array import array
from ctypes import c_size_t, c_void_p
from functools import partial
from struct import Struct
from struct import error as OutOfRange
from typing import Any

from . import _buffers
from ._buffers import NUMBER, room, seen_numpy
from ._rounded import FLOATS
from ._sizes import Size

__all__ = [
    "MOST_FLOATS",
    "Components",
    "QuickRow",
    "Row",
    "count_as_argument",
    "lent_for_good",
    "memory_of",
    "pointer_as_argument",
]

#: Arguments of C functions with such numbers. A call doesn't convert them.
count_as_argument: Any = c_size_t.from_param
pointer_as_argument: Any = c_void_p.from_param
#: Rows of at most so many floats are copied to this memory. Longer rows get memory of their own.
MOST_FLOATS = 1 << 12


def memory_of(numbers: array[Any]) -> Any:
    """Returns the address of these numbers as an argument. The numbers have to exist as long as the argument."""
    return pointer_as_argument(numbers.buffer_info()[0])


def lent_for_good(memory: Any) -> tuple[Any, Any]:
    """Returns the address of a buffer of words, and the number of words for which it has room, as arguments.

    The buffer has to exist as long as the arguments. It doesn't move, because no code makes it longer.
    """
    place = memory.buffer_info()[0] if isinstance(memory, array) else memory.ctypes.data
    return pointer_as_argument(place), count_as_argument(len(memory))


class _Floats:
    """Memory for a row of floats. ``width`` is the number of floats."""

    #: The memory as an array of numpy, or None before the first row in such an array.
    _seen: Any = None
    #: The model of the last row that was a numpy array, or None, and the form of this model, without a row.
    of: Any = None
    _order: Any = None
    #: The C function that takes the floats, with its arguments.
    _share: Any

    def __init__(self, width: int) -> None:
        self.width, self._shape, self._floats = width, (width,), room(NUMBER, width, array)

    def take_floats(self, row: Any, of: Any, form: int) -> int:
        """Takes a row of floats for a model: an array of floats, or a numpy array. Returns the result of the C function."""
        if type(row) is array:
            self._floats[:] = row
        else:
            if self._seen is None:
                self._seen = seen_numpy().frombuffer(self._floats, dtype="float64")
            self._seen[...] = row
            self._order, self.of = (form, None, None), of
        refused: int = self._share()
        return refused

    def take_again(self, given: tuple[Any, ...]) -> Any:
        """Takes a row for the same model, if it is a numpy array like the last one. Returns the form, or otherwise None."""
        row = given[0]
        if type(row) is not _buffers.array_class or row.shape != self._shape or row.dtype.char not in FLOATS:
            return None
        if len(given) > 1:
            return None
        self._seen[...] = row
        return None if self._share() else self._order


class Row(_Floats):
    """Memory for a row of floats or counts, and for weights in proportion to them.

    ``place`` is the address of the weights.
    """

    is_quick = False
    _counts: array[int] | None = None

    def __init__(self, size: Size, width: int) -> None:
        """Creates the memory for rows of a width."""
        super().__init__(width)
        self._size, self._weights = size, room(size.code, width, array)
        self.place = self._weights.buffer_info()[0]
        self._share = self._sharing("weights_of_floats", self._floats)

    def _sharing(self, name: str, numbers: array[Any]) -> Any:
        """Returns a C function that computes the weights of numbers, with its arguments."""
        count = count_as_argument(self.width)
        return partial(self._size.short_function(name), memory_of(numbers), count, memory_of(self._weights), count)

    def take_counts(self, counts: array[int]) -> int:
        """Computes the weights of these counts. Returns the result of the C function."""
        if self._counts is None:
            memory = room("Q", self.width, array)
            self._share_counts = self._sharing("weights_of_counts", memory)
            self._counts = memory
        self._counts[:] = counts
        refused: int = self._share_counts()
        return refused


class QuickRow(_Floats):
    """Memory for a row of floats and their counts, from which a coder's C function computes an interval.

    ``place`` is the address of the counts.
    """

    is_quick = True

    def __init__(self, size: Size, width: int) -> None:
        """Creates the memory for rows of a width."""
        super().__init__(width)
        self._counts, count = room("I", width, array), count_as_argument(width)
        self.place = self._counts.buffer_info()[0]
        lists = memory_of(self._floats), count, count, memory_of(self._counts), count
        self._share = partial(size.short_function("counts_of_floats"), *lists)


class Components:
    """Memory for the weights, the locations and the scales of a mixture's components."""

    def __init__(self, width: int) -> None:
        """Creates the memory for so many components."""
        form = Struct(f"@{width}I{width}q{width}I")
        memory = room("q", form.size // 8 + 1, array)
        start, self.width = memory.buffer_info()[0], width
        middle = start + Struct(f"@{width}I0q").size
        #: The addresses of the weights, of the locations and of the scales.
        self.places = start, middle, middle + 8 * width
        self._put = partial(form.pack_into, memory, 0)

    def take(self, numbers: list[int]) -> int:
        """Takes the weights, then the locations, then the scales. Returns 1 if one doesn't fit its type, else 0."""
        try:
            self._put(*numbers)
        except OutOfRange:
            return 1
        return 0
