"""Rows of counts below 2^32 from probabilities, and weights from such a row, for ``Categorical(perfect=False)``.

A C function computes the counts of floats. Whole numbers that are too large are rounded by the same rule: each number of a
row is multiplied by the row's unit, a power of two, and rounded once, half to even. The unit makes the greatest count at
least 2^30 and at most 2^31. If the counts then add up to 2^40 or more, the unit is divided by the least power of two that
brings this sum below 2^39.
"""

from __future__ import annotations

from array import array
from itertools import accumulate
from typing import Any

from ._buffers import numpy_module, room
from ._numbers import doubles
from ._sizes import LARGE, Size
from ._units import halved, wrong_probabilities
from .errors import WrongWeightsError, shown

__all__ = ["quick_counts_of", "quick_counts_of_rows", "quick_counts_of_wholes", "quick_weights"]

#: The number of bits of the greatest count's limit, of a sum's limit, and of a sum after a second try.
_BITS, _SUM_BITS, _LESS_BITS = 31, 40, 39


def quick_counts_of(probabilities: array[float]) -> array[int]:
    """Returns the counts of a row of floats.

    Raises ValueError if no probability is above 0, or if one is negative or not finite.
    """
    counts = room("I", len(probabilities), array)
    try:
        LARGE.count_floats(*probabilities.buffer_info(), len(probabilities), *counts.buffer_info())
    except WrongWeightsError:
        raise wrong_probabilities(probabilities) from None
    return counts


def quick_counts_of_wholes(wholes: list[int]) -> array[int]:
    """Returns the counts of a row of whole numbers: the numbers, if they are below 2^32 and add up to less than 2^40.

    Other whole numbers are rounded as floats are. Raises ValueError if none is above 0, or if one is negative.
    """
    if min(wholes, default=0) < 0:
        place, count = next((i, it) for i, it in enumerate(wholes) if it < 0)
        raise ValueError(f"expected a probability that is at least 0, got {shown(count)} at place {place}")
    greatest = max(wholes, default=0)
    if not greatest:
        raise ValueError("expected a probability above 0, got none")
    if greatest >> 32 == 0 and sum(wholes) >> _SUM_BITS == 0:
        return array("I", wholes)
    shift = _BITS - greatest.bit_length()
    counts = [_moved(it, shift) for it in wholes]
    total = sum(counts)
    if total >> _SUM_BITS:
        shift -= total.bit_length() - _LESS_BITS
        counts = [_moved(it, shift) for it in wholes]
    return array("I", counts)


def _moved(number: int, shift: int) -> int:
    """Returns ``number * 2^shift``, rounded to the nearest whole number, half to even."""
    return number << shift if shift >= 0 else halved(number, -shift)


def quick_counts_of_rows(table: Any) -> array[int] | None:
    """Returns the counts of each row of a numpy array of numbers, one row after another.

    Returns None if a row has no such counts, or if whole numbers have to be rounded.
    """
    numpy = numpy_module()
    if table.dtype.kind != "f":
        return _counts_of_wholes(table)
    floats, counts = doubles(table).flatten(), room("I", table.size)  # A copy, because C functions get own memory.
    try:
        LARGE.count_floats(floats.ctypes.data, floats.size, table.shape[1], *counts.buffer_info())
    except WrongWeightsError:
        return None
    return counts


def _counts_of_wholes(table: Any) -> array[int] | None:
    """Does the same as ``quick_counts_of_rows`` for whole numbers. Returns None if they have to be rounded."""
    numpy = numpy_module()
    greatest = table.max(axis=1)
    if int(table.min()) < 0 or int(greatest.min()) == 0 or int(greatest.max()) >> 32:
        return None
    counts = room("I", table.size)
    seen = numpy.frombuffer(counts, dtype="uint32").reshape(table.shape)
    numpy.copyto(seen, table, casting="unsafe")
    return counts if int(seen.sum(axis=1, dtype="uint64").max()) >> _SUM_BITS == 0 else None


def quick_weights(counts: array[int], words: Size) -> array[int]:
    """Returns the weights of a row of counts.

    Symbol ``k`` begins at the sum of the counts before it, times the number of quantiles that are left when each symbol has
    one, divided by the sum of all counts and rounded down, plus ``k``.
    """
    free = words.total - len(counts)
    numpy = numpy_module()
    if numpy is not None:
        ends = numpy.frombuffer(counts, dtype="uint32").cumsum(dtype="uint64")
        total = ends[-1]
        ends *= numpy.uint64(free)
        ends //= total
        ends[1:] -= ends[:-1].copy()
        ends += numpy.uint64(1)
        weights = room(words.code, len(counts), array)
        numpy.copyto(numpy.frombuffer(weights, dtype=words.code), ends, casting="unsafe")
        return weights
    sums = list(accumulate(counts))
    shares = [it * free // sums[-1] for it in sums]
    return array(words.code, (it - before + 1 for it, before in zip(shares, [0, *shares])))
