"""Bits in bytes: bits fill a byte from its lowest bit up, and bytes fill a word from its lowest byte up."""

from __future__ import annotations

from typing import NamedTuple

from .._buffers import WORD, List, Numbers, room
from .._numbers import words_of
from .._words import swapped

__all__ = ["Bits", "bits_of", "words_with"]


class Bits(NamedTuple):
    """The first ``length`` bits of a buffer. The other bits of the buffer have no meaning."""

    memory: bytearray
    length: int

    def put(self, bits: int, count: int) -> Bits:
        """Returns these bits, followed by ``count`` bits of the number ``bits``, lowest first.

        The call changes the buffer only after the first ``length`` bits.
        """
        start, low = self.length >> 3, self.length & 7
        if low:
            bits = self.memory[start] & ((1 << low) - 1) | bits << low
        size = (low + count + 7) >> 3
        self.memory[start : start + size] = bits.to_bytes(size, "little")
        return Bits(self.memory, self.length + count)

    def get(self, place: int) -> int:
        """Returns the bit at index ``place``."""
        return self.memory[place >> 3] >> (place & 7) & 1

    def part(self, start: int, end: int) -> int:
        """Returns the bits from index ``start`` to before index ``end`` as a number, lowest first."""
        number = int.from_bytes(self.memory[start >> 3 : (end + 7) >> 3], "little") >> (start & 7)
        return number & ((1 << (end - start)) - 1)

    def clone(self) -> Bits:
        """Returns a copy in a buffer of its own, in which zero bits fill the last byte."""
        copy = self.memory[: (self.length + 7) >> 3]
        if self.length & 7:
            copy[-1] &= (1 << (self.length & 7)) - 1
        return Bits(copy, self.length)


def bits_of(words: List) -> Bits:
    """Returns a copy of all bits of these words."""
    given = words_of(words)
    copy = room(WORD, 0)
    copy.extend(given)
    return Bits(bytearray(swapped(copy).tobytes()), 32 * len(copy))


def words_with(bits: int, count: int) -> Numbers:
    """Returns ``count`` bits as words. Zero bits fill the last word."""
    words = room(WORD, 0)
    words.frombytes(bits.to_bytes((count + 31) // 32 * 4, "little"))
    return swapped(words)
