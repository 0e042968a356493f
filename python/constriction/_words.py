"""Words in a buffer that C functions fill from its beginning."""

from __future__ import annotations

import sys
from array import array
from typing import Any, NamedTuple, TypeVar

from ._buffers import OWN, Array, List, Numbers, copied_part, lent, room
from ._numbers import words_of
from ._sizes import LARGE, Size
from .errors import InvalidDataError

__all__ = ["Words", "bytes_of", "copied", "packed", "unpacked", "words_from"]

Memory = TypeVar("Memory", bound=Array)
#: A buffer has at least this many words.
_LEAST = 4


class Words(NamedTuple):
    """The first ``length`` words of a buffer. The last of them is the top. The other words have no meaning.

    A longer list of words may be in the same buffer. A coder's lock makes sure that only one list is used at a time.
    """

    memory: Any
    length: int

    @property
    def code(self) -> str:
        """The typecode of the words."""
        memory = self.memory
        return memory.typecode if isinstance(memory, array) else memory.dtype.char  # type: ignore[no-any-return]

    def reserve(self, more: int, kept: int = 0) -> Words:
        """Returns the same words, with room for ``more`` more words.

        Only if the buffer has too little room, the words are copied to a new buffer, or the buffer's first ``kept``
        words if these are more.
        """
        wanted, capacity = self.length + more, len(self.memory)
        if wanted <= capacity:
            return self
        memory, kept = room(self.code, max(wanted, capacity + capacity // 2), OWN), max(kept, self.length)
        memoryview(memory)[:kept] = memoryview(self.memory)[:kept]
        return Words(memory, self.length)

    def lent(self) -> tuple[Any, int]:
        """Returns the buffer as arguments of a C function."""
        return lent(self.memory), len(self.memory)

    def numbers(self) -> Numbers:
        """Returns a copy of the words in use, as a caller gets it."""
        copy = room(self.code, self.length)
        memoryview(copy)[:] = memoryview(self.memory)[: self.length]
        return copy

    def clone(self) -> Words:
        """Returns a copy in a buffer of its own."""
        return Words(copied_part(self.memory, 0, self.length), self.length)


def copied(given: List = (), size: Size = LARGE) -> Words:
    """Returns a copy of these words."""
    memory = words_of(given, code=size.code)
    length = len(memory)
    if length < _LEAST:
        memory.extend([0] * (_LEAST - length))
    return Words(memory, length)


def packed(numbers: Words) -> bytes:
    """Returns the words as bytes for pickles. The lowest byte comes first on every machine."""
    return swapped(numbers.numbers()).tobytes()


def unpacked(data: bytes, size: Size) -> Words:
    """Returns the words from bytes. This is the inverse of ``packed``."""
    memory = room(size.code, 0, array)
    memory.frombytes(data)
    return Words(swapped(memory), len(memory))


def bytes_of(numbers: Numbers) -> bytes:
    """Returns words as a file has them, each with the lowest byte first. The call may change ``numbers``."""
    return swapped(numbers).tobytes()


def words_from(data: Any, size: Size) -> Numbers:
    """Returns the words of such bytes. Raises TypeError for other objects, and InvalidDataError for a part of a word."""
    try:
        view = memoryview(data)
    except TypeError:
        raise TypeError(f"expected bytes, got {type(data).__name__}") from None
    if view.nbytes % (size.bits // 8):
        raise InvalidDataError(f"expected {size.bits // 8} bytes for each word, got {view.nbytes} bytes")
    words = room(size.code, 0)
    words.frombytes(view.tobytes())
    return swapped(words)


def swapped(numbers: Memory) -> Memory:
    """Returns these words with the lowest byte first. The function is its own inverse."""
    if sys.byteorder == "big":
        numbers.byteswap()
    return numbers
