"""The two sizes of words, states and weights for which the library has functions."""

from __future__ import annotations

from ctypes import c_uint32, c_uint64
from typing import Any

from ._library import (
    ChainHeads, RangeDecoderState, RangeEncoderState, SmallChainHeads, SmallRangeDecoderState, SmallRangeEncoderState, bound, call,
    short_function,
)  # fmt: skip

__all__ = ["LARGE", "SMALL", "Size"]


class Size:
    """A size: the bits of a word, the precision, and the types that go with them. A state has twice a word's bits."""

    def __init__(self, bits: int, precision: int, code: str, head: Any, encoder: Any, decoder: Any, heads: Any) -> None:
        #: The number of bits of a word, and the greatest state.
        self.bits, self.greatest = bits, (1 << 2 * bits) - 1
        #: The sum of all weights, and its logarithm to base 2.
        self.precision, self.total = precision, 1 << precision
        #: The typecodes of arrays of words or weights, and of states.
        self.code, self.code_of_states = code, "I" if head is c_uint32 else "Q"
        #: The types of the numbers of coders in C.
        self.head, self.encoder, self.decoder, self.heads = head, encoder, decoder, heads
        self.end = f"_u{bits}"
        #: The C functions that compute weights from counts and from floats. They get two addresses, each with a number of
        #: items.
        self.share_counts, self.share_floats = bound(f"weights_of_counts_u{bits}"), bound(f"weights_of_floats_u{bits}")
        #: The C function that computes counts from rows of floats. It also gets the width of a row after the floats.
        self.count_floats = bound(f"counts_of_floats_u{bits}")

    def __reduce__(self) -> str:
        return "SMALL" if self.bits == 16 else "LARGE"

    def call(self, name: str, *arguments: Any, texts: dict[int, str] | None = None) -> None:
        """Calls the C function ``name`` of this size, and raises the exception of its result."""
        call(name + self.end, *arguments, texts=texts)

    def function(self, name: str) -> Any:
        """Returns a function that does the same as ``call`` with this name, in fewer steps."""
        return bound(name + self.end)

    def short_function(self, name: str) -> Any:
        """Returns the C function ``name`` of this size for short calls, whose arguments are of the function's types."""
        return short_function(name + self.end)


LARGE = Size(32, 24, "I", c_uint64, RangeEncoderState, RangeDecoderState, ChainHeads)
SMALL = Size(16, 12, "H", c_uint32, SmallRangeEncoderState, SmallRangeDecoderState, SmallChainHeads)
