"""Rounds numpy arrays of floats to units in few calls of numpy, if all floats are between limits.

A float plus 1.5 * 2^52 units is rounded to a whole number of units, half to even. The last bits of the sum are this number.
"""

from __future__ import annotations

from collections.abc import Sequence
from typing import Any

from . import _buffers
from ._buffers import seen_numpy

__all__ = ["FLOATS", "Rounded"]

#: numpy's letters of the types of floats that are taken.
FLOATS = frozenset("df")
#: Locations have less than this number of units, and other numbers less than twice this number and at least one.
_LIMIT = 1 << 31


class Rounded:
    """Memory for parameters in units: locations of 64 bits, and others of 32 bits, as arrays of one shape."""

    def __init__(self, units: Sequence[float], memory: Sequence[Any]) -> None:
        """Takes the number of units in 1 of each parameter, and a numpy array for each parameter in units."""
        numpy, self.shape = seen_numpy(), memory[0].shape
        self._add, self._subtract = numpy.add, numpy.subtract
        sums = numpy.empty((len(units), *self.shape))
        bits, self._places = sums.view("int64"), numpy.empty(sums.shape, "int64")
        self._bits, self._every = bits, self._places.view("uint64").ravel()
        halves = [numpy.full(self.shape, 1.5 * 2.0**52 / unit) for unit in units]
        self._steps = tuple(zip(halves, sums))
        #: Of each parameter the sum's bits for the least number of units that is taken.
        self._least = numpy.array([half.view("int64") for half in halves])
        zeros = self._least.copy()
        for i, it in enumerate(memory):
            self._least[i] += -_LIMIT if it.dtype == "int64" else 1
        self._locations = [(bits[i], zeros[i], it) for i, it in enumerate(memory) if it.dtype == "int64"]
        self._others = [(it, bits[i]) for i, it in enumerate(memory) if it.dtype != "int64"]

    def take(self, given: Sequence[Any]) -> bool:
        """Rounds an array of floats for each parameter, or a float that stands for all.

        Returns whether this is possible. Otherwise the memory has any numbers.
        """
        for it, (half, sums) in zip(given, self._steps):
            if type(it) is not float and (
                type(it) is not _buffers.array_class or it.shape != self.shape or it.dtype.char not in FLOATS
            ):
                return False
            self._add(it, half, sums)  # A copy: other code may change the array during the call.
        self._subtract(self._bits, self._least, self._places)
        every = self._every
        if every.item(every.argmax()) >= 2 * _LIMIT - 1:  # Also if a float isn't finite.
            return False
        for bits, zeros, locations in self._locations:
            self._subtract(bits, zeros, locations)
        for others, bits in self._others:
            others[...] = bits  # The last 32 bits.
        return True
