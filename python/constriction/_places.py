"""Symbols as indexes of a table, in memory that the C functions read."""

from __future__ import annotations

from array import array
from collections.abc import Iterable
from typing import Any

from ._buffers import BYTE, SHORT, SYMBOL, lent, numpy_module
from ._numbers import as_numpy, is_one, items_of, own_of, past, unmasked, whole, wholes_of, wholes_wanted
from .errors import IMPOSSIBLE_SYMBOL, ImpossibleSymbolError

__all__ = ["Places", "places_of"]

#: An array of numpy with as many indexes as a part of a list has, which the next call can use, or none.
_SPARE: list[Any] = []
_SPARE_LENGTH = 1 << 16


class Places:
    """The indexes of a list of symbols. ``form`` is the part of a function's name that says their type."""

    def __init__(self, memory: Any) -> None:
        """Takes indexes in memory of this package."""
        self.form = {1: "_bytes", 2: "_shorts", 8: ""}[memory.itemsize]
        self._memory = memory

    def __len__(self) -> int:
        return len(self._memory)

    def lent(self, part: slice) -> Any:
        """Returns the indexes of a part of the list, as an argument of a C function."""
        return lent(self._memory, part.start)

    def close(self) -> None:
        """Ends the use of the memory."""


class _NumpyPlaces(Places):
    """The indexes of symbols in a numpy array, which are copied when a part is lent.

    They are modulo 2^64, so an index that doesn't fit 64 bits is past each table. Other code may change the array during
    a call, so a C function gets a copy.
    """

    def __init__(self, table: Any, first: int) -> None:
        wholes_wanted(table)
        if first < 0 and table.dtype.kind == "u" and table.dtype.itemsize == 8 and past(SYMBOL, table):
            raise OverflowError
        self.form, self._table, self._first = "", table, first
        self._own: Any = None

    def __len__(self) -> int:
        return len(self._table)

    def lent(self, part: slice) -> Any:
        numpy, count = numpy_module(), part.stop - part.start
        if self._own is None or len(self._own) < count:
            self._own = _spare() if count <= _SPARE_LENGTH else numpy.empty(count, "int64")
        some, own = self._table[part], self._own[:count]
        if self._first:
            numpy.subtract(some, self._first, out=own, dtype="int64", casting="unsafe")
        else:
            numpy.copyto(own, some, casting="unsafe")
        return lent(own)

    def close(self) -> None:
        own, self._own = self._own, None
        if own is not None and len(own) == _SPARE_LENGTH and not _SPARE:
            _SPARE.append(own)


def _spare() -> Any:
    """Returns the spare array, or another one if there is none."""
    try:
        return _SPARE.pop()  # No other thread gets it too.
    except IndexError:
        return numpy_module().empty(_SPARE_LENGTH, "int64")


def places_of(symbols: Any, first: int, narrow: bool = False) -> Places:
    """Converts a symbol or a list of symbols to indexes of a table whose first symbol is ``first``.

    With ``narrow`` the indexes may have 8 or 16 bits, as symbols of these types have. Raises ImpossibleSymbolError if
    an index doesn't fit 64 bits.
    """
    try:
        if is_one(symbols):
            return Places(array(SYMBOL, (whole(symbols) - first,)))
        memory = _narrow(symbols) if narrow and not first else None
        if memory is not None:
            return Places(memory)
        table = as_numpy(symbols)
        if table is not None:
            return _NumpyPlaces(table, first)
        if first:
            return Places(array(SYMBOL, map((-first).__add__, _signed(symbols))))
        return Places(wholes_of(SYMBOL, symbols))
    except OverflowError:
        # No index of a table has more than 64 bits.
        raise ImpossibleSymbolError(IMPOSSIBLE_SYMBOL) from None


def _narrow(symbols: Any) -> array[Any] | None:
    """Returns a copy of a list of symbols of 8 or 16 bits without a sign. Returns None for other symbols."""
    if isinstance(symbols, (list, tuple, bytes, bytearray)):
        return None
    unmasked(symbols)
    return own_of(SHORT if getattr(symbols, "itemsize", 1) == 2 else BYTE, symbols)


def _signed(symbols: Any) -> Iterable[int]:
    """Returns whole numbers to iterate over, in their own memory if the memory's format has a sign."""
    if isinstance(symbols, array) and symbols.typecode == SYMBOL:
        return symbols
    return map(whole, items_of(symbols))
