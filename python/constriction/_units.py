"""Conversions of floats to whole numbers. Each float is rounded once, half to even, with or without numpy."""

from __future__ import annotations

from array import array
from collections.abc import Callable, Iterable
from math import inf, isfinite, isnan, nan
from typing import Any

from . import _buffers
from ._buffers import NUMBER, SYMBOL, WORD, numpy_module, room, seen_numpy
from ._numbers import NO_REAL_KINDS, real, unmasked
from ._sizes import Size
from .errors import WrongWeightsError, shown

__all__ = [
    "FARTHEST", "MOST_WEIGHT", "NARROWEST", "SHARES", "UNITS_OF_ONE", "WIDEST", "component_weights_of", "components_of", "counts_of_wholes", "halved", "locations_of",
    "moved", "parts_of", "quick_units_of", "scales_of", "unit_of", "wrong_probabilities", "wrong_row",
]  # fmt: skip

#: The number of units in a location or a scale of 1.
UNITS_OF_ONE = 65536.0
#: The limit of locations. A table is the same for all locations that are so far outside of the table's range.
FARTHEST = 2.0**46
#: The least scale, 1 unit, the greatest scale, 2^32 - 1 units, and the least float that no scale may be.
NARROWEST, WIDEST, TOO_WIDE = 1 / UNITS_OF_ONE, 65536.0 - 1 / UNITS_OF_ONE, 65536.0
#: The number of units in a component's weight of 1, the greatest sum of a row's weights, and the greatest weight.
SHARES, _MOST_SHARES = 2.0**31, 2.0
MOST_WEIGHT = _MOST_SHARES - 1 / SHARES
#: The number of bits of the greatest count, if whole numbers become counts.
_COUNT_BITS = 62


#: For lists that aren't longer than this, Python's own functions are faster than those of numpy.
_FEW = 32
_FLOAT = frozenset((float,))
#: The least float of a list, and the greatest float.
Ends = tuple[float, float]
#: Rounds a float half to even, like ``round``, without a search for the method of a number's type.
_nearest: Callable[[float], int] = float.__round__


def _numpy_for(floats: Any) -> Any:
    """Returns numpy if it is loaded, and if there are many floats or they are a numpy array.

    Otherwise returns None.
    """
    return numpy_module() if len(floats) > _FEW or not isinstance(floats, array) else None


def _seen(numpy: Any, floats: Any) -> Any:
    """Returns the same floats as a numpy array, without a copy."""
    return floats if isinstance(floats, numpy.ndarray) else numpy.frombuffer(floats, dtype="float64")


def _ends(floats: Any) -> Ends:
    """Returns the least and the greatest of these floats.

    Both are 1 if there are no floats. Both are NaN if a float isn't finite.
    """
    numpy = _numpy_for(floats)
    if not len(floats):
        return 1.0, 1.0
    if numpy is not None:
        table = _seen(numpy, floats)
        least, greatest = float(table.min()), float(table.max())  # NaN if one float is NaN.
        return (least, greatest) if isfinite(least) and isfinite(greatest) else (nan, nan)
    return (min(floats), max(floats)) if all(map(isfinite, floats)) else (nan, nan)


def _fault_of(
    name: str, floats: array[float], good: Callable[[float], bool], wanted: str, width: int | None = None
) -> ValueError:
    """Returns the exception for the first float that isn't good.

    ``width`` is the number of floats for each symbol, if there are several.
    """
    found = next(((i, it) for i, it in enumerate(floats) if not good(it)), None)
    if found is None:  # Another thread has changed it.
        return ValueError(f"expected a {name} {wanted}, got another")
    place, number = found
    which = f" at place {place}" if len(floats) > 1 else ""
    if width is not None:
        which = f" for component {place % width} of symbol {place // width}"
    return ValueError(f"expected a {name} {wanted}, got {number}{which}")


def _rounded(code: str, floats: array[float], unit: float, within: Ends, ends: Ends) -> array[int]:
    """Returns the floats in units, rounded, and limited to the bounds ``within``.

    ``unit`` is the number of units in 1. ``ends`` are the least and the greatest float.
    """
    numpy = _numpy_for(floats)
    if numpy is not None:
        table = _seen(numpy, floats)
        if ends[0] < within[0] or ends[1] > within[1]:
            table = numpy.clip(table, *within)
        table = table * unit
        memory = room(code, len(floats), array)
        numpy.copyto(numpy.frombuffer(memory, dtype=code), numpy.rint(table, out=table), casting="unsafe")
        return memory
    numbers: Iterable[float] = floats
    if ends[0] < within[0] or ends[1] > within[1]:
        numbers = [min(max(it, within[0]), within[1]) for it in floats]
    return array(code, map(_nearest, map(unit.__mul__, numbers)))


def moved(floats: array[float], origin: float) -> array[float]:
    """Returns each float minus ``origin``."""
    return array(NUMBER, map((-origin).__add__, floats)) if origin else floats


def unit_of(number: Any, origin: float, least: float, greatest: float) -> int | None:
    """Returns a float minus ``origin``, in units, rounded like a list of floats.

    Returns None for a float outside the bounds, and for a list, unless it is a list of one float.
    """
    if type(number) is not float:
        if type(number) is _buffers.array_class and number.ndim < 2 and number.size == 1:
            item = number.item()
            number = item if type(item) is float else number
        elif isinstance(number, float):
            number = float(number)
        if type(number) is not float:
            number = _only(number)
            if number is None:
                return None
    number -= origin
    return _nearest(number * UNITS_OF_ONE) if least <= number <= greatest else None


def _kind_of(numbers: Any) -> str:
    """Returns the letter of numpy's kind of numbers in an array, or ``f`` for other arrays. Refuses masked arrays."""
    unmasked(numbers)
    kind: str = getattr(getattr(numbers, "dtype", None), "kind", "f")
    return kind


def _only(numbers: Any) -> float | None:
    """Returns a number, or the number of a list of one number, as a float. Returns None for other lists and objects."""
    number = numbers
    if hasattr(numbers, "__len__"):
        dimensions = getattr(numbers, "ndim", None)
        if dimensions is not None and hasattr(numbers, "item"):
            if _kind_of(numbers) in NO_REAL_KINDS:
                return None  # Their items may be ints.
            number = numbers.item() if dimensions == 0 or dimensions == 1 and len(numbers) == 1 else None
        else:
            number = numbers[0] if isinstance(numbers, (list, tuple, array)) and len(numbers) == 1 else None
        if hasattr(number, "__len__"):
            return None
    return real(number) if type(number) is int or hasattr(number, "__float__") else None


def quick_units_of(floats: Any, least: float, greatest: float, kind: str) -> Any:
    """Returns the floats of a numpy array in units of 2^-16, rounded, as a numpy array of whole numbers.

    Returns None for other lists, and if a float isn't between the least and the greatest one.
    """
    if type(floats) is not _buffers.array_class or floats.ndim != 1 or floats.dtype.char not in "df" or not len(floats):
        return None
    if not (least <= floats.item(floats.argmin()) and floats.item(floats.argmax()) <= greatest):  # False for NaN.
        return None
    table = (floats if floats.dtype.char == "d" else floats.astype("float64")) * UNITS_OF_ONE
    return seen_numpy().rint(table, table).astype(kind)


def _plain(floats: Any) -> Any:
    """Returns a list of numbers, or None if ``floats`` isn't a list, a tuple or an array of real numbers."""
    kind = type(floats)
    if kind is list or kind is tuple:
        return floats
    return floats.tolist() if hasattr(floats, "tolist") and _kind_of(floats) in "iubf" else None


def components_of(given: tuple[Any, ...], origin: float = 0.0) -> tuple[list[int], int] | None:
    """Returns a few weights, locations minus ``origin``, and scales, in units and in one list, and the number of each.

    They are rounded like ``component_weights_of``, ``locations_of`` and ``scales_of`` do it, but without the limits. A C
    function refuses a scale of 0, and takes locations past their limit for the limit. Returns None if a weight is
    negative, if a number isn't finite or isn't a plain number, or if the lengths differ.
    """
    weights, locations, scales = given
    try:
        if type(weights) is type(locations) is type(scales) is _buffers.array_class:
            weights, locations, scales = weights.tolist(), locations.tolist(), scales.tolist()
            if not (weights and locations and scales):
                return None
            if not type(weights[0]) is type(locations[0]) is type(scales[0]) is float:
                weights, locations, scales = map(_plain, given)
        else:
            weights, locations, scales = map(_plain, given)
        width = len(weights)
        if width != len(locations) or width != len(scales):
            return None
        if origin:
            locations = [it - origin for it in locations]
        numbers = [_nearest(it * SHARES) for it in weights]
        numbers += [_nearest(it * UNITS_OF_ONE) for it in locations]
        numbers += [_nearest(it * UNITS_OF_ONE) for it in scales]
        return None if not width or min(weights) < 0 else (numbers, width)
    except (TypeError, ValueError, OverflowError):
        return None


def locations_of(name: str, floats: array[float], width: int | None = None) -> array[int]:
    """Returns locations in units of 2^-16. Raises ValueError if one isn't finite."""
    ends = _ends(floats)
    if isnan(ends[0]):
        raise _fault_of(name, floats, isfinite, "that is finite", width)
    return _rounded(SYMBOL, floats, UNITS_OF_ONE, (-FARTHEST, FARTHEST), ends)


def scales_of(name: str, floats: array[float], width: int | None = None) -> array[int]:
    """Returns scales in units of 2^-16, limited to the least and the greatest scale.

    Raises ValueError if a scale isn't positive and finite, or if a scale is 65536 or more.
    """
    ends = _ends(floats)
    if not ends[0] > 0:
        raise _fault_of(name, floats, lambda it: 0 < it < inf, "that is positive and finite", width)
    if ends[1] >= TOO_WIDE:
        raise _fault_of(name, floats, lambda it: it < TOO_WIDE, "below 65536", width)
    return _rounded(WORD, floats, UNITS_OF_ONE, (NARROWEST, WIDEST), ends)


def component_weights_of(floats: array[float], width: int) -> array[int]:
    """Returns the weights of components in units of 2^-31. Each symbol has a row of ``width`` weights.

    Raises ValueError if a weight is negative or not finite, and WrongWeightsError if a weight is at least 2, or if
    ``width`` is 0. The C functions check the sums of the rows.
    """
    ends = _ends(floats)
    if not ends[0] >= 0:
        raise _fault_of("weight", floats, lambda it: 0 <= it < inf, "that is at least 0 and finite", width)
    if not width or ends[1] >= _MOST_SHARES:
        raise wrong_row(floats, width)
    return _rounded(WORD, floats, SHARES, (0.0, MOST_WEIGHT), ends)


def wrong_row(floats: Any, width: int) -> WrongWeightsError:
    """Returns the exception for the first row of weights whose sum is 0 or too large, or for rows of width 0."""
    if not width:
        return WrongWeightsError("expected at least one component, got rows without components")
    for start in range(0, len(floats), width):
        row = [float(it) for it in floats[start : start + width]]
        if max(row) >= _MOST_SHARES or not 0 < sum(round(it * SHARES) for it in row) <= _MOST_SHARES * SHARES:
            return WrongWeightsError(
                f"expected weights with a sum above 0 and of at most 2, got a sum of {sum(row)} for symbol {start // width}"
            )
    return WrongWeightsError("expected weights with a sum above 0 and of at most 2")


def wrong_probabilities(floats: Any) -> ValueError:
    """Returns the exception for probabilities of which one is negative or not finite, or none is above 0."""
    if all(0 <= it < inf for it in floats):
        return ValueError("expected a probability above 0, got none")
    return _fault_of("probability", floats, lambda it: 0 <= it < inf, "that is at least 0 and finite")


def parts_of(probabilities: array[float], words: Size) -> array[int]:
    """Returns probabilities in units of 2^-24, from 1 to 2^24 - 1, or of 2^-12 for words of 16 bits.

    Raises ValueError if a probability isn't between 0 and 1.
    """
    ends = _ends(probabilities)
    if not (ends[0] >= 0 and ends[1] <= 1):
        raise _fault_of("probability", probabilities, lambda it: 0 <= it <= 1, "between 0 and 1")
    total = float(words.total)
    return _rounded(words.code, probabilities, total, (1 / total, 1 - 1 / total), ends)


def _counts_of_table(table: Any) -> array[int] | None:
    """Does the same as ``counts_of_wholes`` for a numpy array. Returns None if the counts are invalid."""
    numpy = numpy_module()
    if not table.size or int(table.min()) < 0:
        return None
    bits = int(table.max()).bit_length()
    if not bits:
        return None
    counts = room("Q", table.size)
    seen = numpy.frombuffer(counts, dtype="uint64")
    numpy.copyto(seen, table, casting="unsafe")
    numpy.left_shift(seen, numpy.uint64(max(_COUNT_BITS - bits, 0)), out=seen)
    numpy.maximum(seen, numpy.uint64(1), out=seen)
    return counts


def counts_of_wholes(counts: Any) -> array[int]:
    """Returns counts in the same proportions, with at most 64 bits each.

    A count of 0 becomes the least count, 1. If a count is at least 2^64, all counts are rounded, so that the greatest
    has 62 bits. ``counts`` is a list or a numpy array. Raises ValueError if none is above 0, or if one is negative.
    """
    if not isinstance(counts, list):
        return _counts_of_table(counts) or counts_of_wholes(counts.tolist())
    if min(counts, default=0) < 0:
        place, count = next((i, it) for i, it in enumerate(counts) if it < 0)
        raise ValueError(f"expected a probability that is at least 0, got {shown(count)} at place {place}")
    bits = max(counts, default=0).bit_length()
    if not bits:
        raise ValueError("expected a probability above 0, got none")
    if bits > 64:
        down = bits - _COUNT_BITS
        return array("Q", [halved(count, down) or 1 for count in counts])
    up = max(_COUNT_BITS - bits, 0)
    return array("Q", [count << up or 1 for count in counts])


def halved(count: int, times: int) -> int:
    """Returns ``count / 2^times``, rounded to the nearest whole number, half to even."""
    quotient, rest = count >> times, count & (1 << times) - 1
    middle = 1 << times - 1
    return quotient + (rest > middle or rest == middle and quotient & 1)
