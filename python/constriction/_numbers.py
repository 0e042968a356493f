"""Conversions of the numbers that callers pass: ``operator.index`` for whole numbers, ``float`` for floats.

Lists for C functions are copied.
"""

from __future__ import annotations

import sys
from array import array
from collections.abc import Callable, Mapping, Set
from itertools import islice
from operator import index
from typing import Any

from . import _buffers
from ._buffers import BYTE, NUMBER, SHORT, SYMBOL, WORD, List, numpy_module, room
from .errors import InvalidDataError, Refusal, WrongLengthError, shown

__all__ = [
    "NO_REAL_KINDS", "as_numpy", "count_of", "doubles", "floats_of", "grid_of", "is_one", "is_row", "is_whole", "items_of", "list_wanted", "listed_of", "nested", "own_of", "past", "plain_of", "real",
    "rows_of", "sequence_of", "table_of", "unmasked", "whole", "wholes_of", "wholes_wanted", "words_of",
]  # fmt: skip

#: The least and the greatest number that a word and a symbol can be.
_RANGES = {WORD: (0, (1 << 32) - 1), SHORT: (0, (1 << 16) - 1), SYMBOL: (-(1 << 63), (1 << 63) - 1)}
_WANTED = "expected whole numbers, got {}: round them and convert them, as by array.astype('int64')"
#: The formats of memory that holds such numbers. No index of a table has more than 63 bits, so a sign doesn't matter.
_ALIKE = {BYTE: ("B",), SHORT: ("H",), WORD: ("I", "L"), SYMBOL: ("q", "Q", "l", "L", "n", "N"), NUMBER: ("d",)}
_FLOAT = frozenset((float,))
#: numpy's kinds of numbers that ``float`` takes, but that aren't real numbers: complex ones, times and texts.
NO_REAL_KINDS = frozenset("cmMSUV")
#: The greatest number of symbols of a list. These symbols would take 2^51 bytes.
_MOST = 1 << 48


def is_one(it: Any) -> bool:
    """Returns whether ``it`` is a single number, and no list."""
    kind = type(it)
    if kind is int or kind is float:
        return True
    listed = hasattr(kind, "__len__") or hasattr(kind, "__iter__") or hasattr(kind, "__array__")
    return not listed or getattr(it, "shape", None) == ()


def is_row(numbers: Any) -> bool:
    """Returns whether these are a list of numbers that isn't empty, and no list of rows."""
    kind = type(numbers)
    if (kind is list or kind is tuple) and numbers:
        first = type(numbers[0])
        return first is float or first is int or is_one(numbers[0])
    dimensions = getattr(numbers, "ndim", None)
    if dimensions is not None:
        return bool(dimensions == 1 and len(numbers))
    if not hasattr(numbers, "__len__"):
        return False
    if hasattr(numbers, "__array__"):  # It may have no method that iterates.
        table = as_numpy(numbers)
        if table is not None:
            return bool(table.ndim == 1 and len(table))
    return isinstance(numbers, array) and len(numbers) > 0 or any(map(is_one, islice(numbers, 1)))


def is_whole(number: Any) -> bool:
    """Returns whether ``number`` is a single whole number. An array without dimensions may have a float."""
    try:
        return is_one(number) and index(number) is not None
    except TypeError:
        return False


def whole(number: Any) -> int:
    """Converts a number to an int. Raises TypeError for floats, even for 2.0."""
    try:
        return index(number)
    except TypeError:
        raise TypeError(_WANTED.format(type(number).__name__)) from None


def real(number: Any) -> float:
    """Converts a number to a float. Raises TypeError for text, which ``float`` would accept."""
    kind = type(number)
    if kind is float:
        return number  # type: ignore[no-any-return]
    unmasked(number)
    if issubclass(kind, (str, bytes, bytearray)) or not (hasattr(kind, "__float__") or hasattr(kind, "__index__")):
        raise TypeError(f"expected a number, got {kind.__name__}")
    if getattr(getattr(number, "dtype", None), "kind", "f") in NO_REAL_KINDS:
        raise TypeError(f"expected a real number, got {number.dtype}")
    try:
        return float(number)
    except OverflowError:
        raise ValueError(f"expected a number within the range of floats, got a greater {kind.__name__}") from None


def count_of(number: Any) -> int:
    """Converts a number of symbols to an int. Raises ValueError if it isn't between 0 and 2^48."""
    try:
        count = index(number)
    except TypeError:
        raise TypeError(f"expected a number of symbols as a whole number, got {number!r}") from None
    if not 0 <= count <= _MOST:
        raise ValueError(f"expected a number of symbols between 0 and 2^48, got {shown(count)}")
    return count


def unmasked(numbers: Any) -> None:
    masked = getattr(sys.modules.get("numpy.ma"), "MaskedArray", None)
    if masked is not None and isinstance(numbers, masked):
        raise TypeError("expected numbers, got a masked array: pass array.filled(0) or array.compressed()")


def as_numpy(numbers: Any) -> Any:
    """Returns a numpy array if ``numbers`` is one or can be converted to one. Otherwise returns None."""
    if type(numbers) is _buffers.array_class:
        return numbers
    numpy = numpy_module()
    if numpy is None or isinstance(numbers, (list, tuple, range, array)):
        return None
    unmasked(numbers)
    is_table = hasattr(numbers, "__array__") or isinstance(numbers, memoryview) and numbers.ndim > 1
    return numpy.asarray(numbers) if is_table else None  # Subclasses may have other methods.


def list_wanted(items: Any, of: str = "numbers") -> None:
    """Raises TypeError for a text, bytes, a dict, or a set, which has no order."""
    if isinstance(items, str):
        raise TypeError(f"expected a list of {of}, got str")
    if isinstance(items, (bytes, bytearray)):
        raise TypeError(f"expected a list of {of}, got bytes: array('I', data) converts them to words")
    if isinstance(items, (Mapping, Set)):
        raise TypeError(f"expected a list of {of}, got {type(items).__name__}: list(..) converts it")


def items_of(numbers: Any) -> Any:
    """Returns numbers that aren't a numpy array as something to iterate over."""
    list_wanted(numbers)
    try:
        view = memoryview(numbers)
    except TypeError:
        return numbers
    _flat(view.ndim)
    return nested(view)


def nested(view: memoryview) -> list[Any]:
    """Returns the items of memory. Raises TypeError if their format is unknown."""
    try:
        return view.tolist()
    except NotImplementedError:
        text = f"expected numbers in a format that Python knows, got {view.format!r}: convert them, or import numpy"
        raise TypeError(text) from None


def sequence_of(numbers: Any) -> Any:
    """Returns the same list of numbers, or a list or an array if ``numbers`` has no length."""
    if hasattr(numbers, "__len__"):
        return numbers
    table = as_numpy(numbers)
    return list(items_of(numbers)) if table is None else table


def listed_of(numbers: Any) -> list[Any]:
    """Returns a list of numbers, or a single number, as a Python list."""
    if is_one(numbers):
        return [numbers]
    table = as_numpy(numbers)
    return list(items_of(numbers)) if table is None else table.tolist()  # type: ignore[no-any-return]


def plain_of(numbers: Any) -> Any:
    """Returns a numpy array if ``numbers`` is one, and otherwise a Python list."""
    table = as_numpy(numbers)
    return listed_of(numbers) if table is None else table


def _flat(dimensions: int) -> None:
    if dimensions != 1:
        raise TypeError(
            f"expected a list of numbers, got an array of {dimensions} dimensions: array.ravel() converts it"
        )


def past(code: str, numbers: Any) -> bool:
    """Returns whether a numpy array has numbers that don't fit the type ``code``."""
    if not numbers.size:
        return False
    least, greatest = _RANGES[code]
    return int(numbers.min()) < least or int(numbers.max()) > greatest


def _filled(code: str, numbers: Any) -> array[Any]:
    """Returns the numbers of a numpy array in memory of this package."""
    numpy = numpy_module()
    memory = room(code, numbers.size, array)
    if len(memory):
        kind = {WORD: "uint32", SHORT: "uint16", SYMBOL: "int64", NUMBER: "float64"}[code]
        numpy.copyto(numpy.frombuffer(memory, dtype=kind), numbers, casting="unsafe")
    return memory


def wholes_wanted(table: Any) -> None:
    """Raises TypeError if a numpy array isn't a list of whole numbers."""
    _flat(table.ndim)
    if table.dtype.kind not in "iub" and not (table.dtype.kind == "f" and not table.size):
        raise TypeError(_WANTED.format(table.dtype))


def wholes_of(code: str, numbers: List) -> array[Any]:
    """Returns a copy of whole numbers.

    Raises TypeError for other numbers, and OverflowError for numbers that don't fit the type.
    """
    table = as_numpy(numbers)
    if table is not None:
        wholes_wanted(table)
    memory = own_of(code, numbers if table is None else table)
    if memory is not None:
        return memory
    if table is None:
        return array(code, map(whole, items_of(numbers)))
    if past(code, table):
        raise OverflowError("a number is past its type")
    return _filled(code, table)


def own_of(code: str, numbers: Any) -> array[Any] | None:
    """Returns a copy of numbers whose memory has this package's format, without a look at each number.

    Returns None for other numbers.
    """
    try:
        view = memoryview(numbers)
    except (TypeError, ValueError):
        return None
    memory = array(code)
    if view.ndim != 1 or view.format not in _ALIKE[code] or view.itemsize != memory.itemsize:
        return None
    memory.frombytes(view.cast("B") if view.c_contiguous and len(view) else view.tobytes())
    return memory


def words_of(
    words: List, name: str = "word", refused: type[Refusal] = InvalidDataError, code: str = WORD
) -> array[Any]:
    """Returns a copy of words, each below 2^32, or below 2^16 for the typecode of these.

    Raises TypeError for numbers that aren't whole, and ``refused`` for a number that doesn't fit a word.
    """
    if is_one(words):
        raise TypeError(f"expected a list of {name}s, got {type(words).__name__}")
    given = sequence_of(words)
    try:
        return wholes_of(code, given)
    except OverflowError:
        bits = 8 * array(code).itemsize
        found = (f"{shown(it)} at place {i}" for i, it in enumerate(map(whole, listed_of(given))) if it >> bits)
        # Another thread may have changed it.
        text = next(found, "another")
        raise refused(f"expected a {name} of at least 0 and below 2^{bits}, got {text}") from None


def doubles(table: Any) -> Any:
    """Returns a numpy array of real numbers as 64-bit floats. Numbers past these become infinite."""
    if table.dtype.itemsize <= 8:
        return table.astype("float64", copy=False)
    with numpy_module().errstate(over="ignore"):
        return table.astype("float64")


def _real_table(numbers: Any) -> Any:
    """Returns a list of real numbers if it is a numpy array. Otherwise returns None."""
    table = as_numpy(numbers)
    if table is not None:
        _flat(table.ndim)
        if table.dtype.kind not in "iubf":
            raise TypeError(f"expected floats, got {table.dtype}")
    return table


def floats_of(numbers: Any) -> array[float]:
    """Returns a copy of a list of floats, or of a single float."""
    if is_one(numbers):
        return array(NUMBER, (real(numbers),))
    table = _real_table(numbers)
    if table is not None:
        return _filled(NUMBER, doubles(table))
    if type(numbers) is list and _FLOAT.issuperset(map(type, numbers)):
        return array(NUMBER, numbers)
    memory = own_of(NUMBER, numbers)
    return array(NUMBER, map(real, items_of(numbers))) if memory is None else memory


def table_of(numbers: Any) -> Any:
    """Returns a numpy array of two dimensions if the numbers are floats in such an array. Otherwise returns None."""
    table = as_numpy(numbers)
    return table if table is not None and table.ndim == 2 and table.dtype.kind == "f" and table.size else None


def grid_of(numbers: Any) -> tuple[Any, int]:
    """Returns rows of equal width as one list of floats, and the width of a row.

    A list of floats is one row.
    """
    table = as_numpy(numbers)
    if table is not None:
        if table.ndim not in (1, 2):
            raise _no_rows(table.ndim)
        if table.dtype.kind not in "iubf":
            raise TypeError(f"expected floats, got {table.dtype}")
        floats = doubles(table).ravel() if table.size else array(NUMBER)
        return floats, table.shape[-1]
    given = listed_of(numbers)
    if given and is_one(given[0]):
        return floats_of(given), len(given)
    rows = rows_of(given, floats_of)
    width = len(rows[0]) if rows else 1
    for place, row in enumerate(rows):
        if len(row) != width:
            raise WrongLengthError(
                f"expected {width} components for each symbol, as for symbol 0, got {len(row)} for symbol {place}"
            )
    return array(NUMBER, (it for row in rows for it in row)), width


def _listed_rows(numbers: Any) -> Any:
    if isinstance(numbers, (str, bytes, bytearray, Mapping, Set)) or is_one(numbers):
        raise TypeError(f"expected a list of rows, one for each symbol, got {type(numbers).__name__}")
    if isinstance(numbers, (list, tuple)):
        return numbers
    try:
        view = memoryview(numbers)
    except TypeError:
        return numbers
    if view.ndim > 2:
        raise _no_rows(view.ndim)
    return nested(view) if view.ndim == 2 else numbers


def _no_rows(dimensions: int) -> TypeError:
    return TypeError(f"expected a row for each symbol, got an array of {dimensions} dimensions")


def rows_of(numbers: Any, row: Callable[[Any], array[Any]]) -> list[array[Any]]:
    """Returns a row for each symbol, from a list of lists or a table of two dimensions."""
    table = as_numpy(numbers)
    if table is None:
        return [row(it) for it in _listed_rows(numbers)]
    if table.ndim != 2:
        raise _no_rows(table.ndim)
    return [row(it) for it in table]
