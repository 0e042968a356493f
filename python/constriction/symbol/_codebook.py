"""The base class of codebooks."""

from __future__ import annotations

from array import array
from collections.abc import Callable
from typing import Any

from .._buffers import Numbers
from .._numbers import is_one, listed_of, whole
from ..errors import ImpossibleSymbolError, impossible

__all__ = ["Codebook", "codebook_wanted"]


def codebook_wanted(codebook: Any) -> None:
    """Raises TypeError if ``codebook`` isn't a codebook."""
    if not isinstance(codebook, Codebook):
        raise TypeError(f"expected a codebook, such as a Huffman tree or ExpGolomb(), got {type(codebook).__name__}")


class Codebook:
    """A codebook. It has codewords of single symbols in Python, and encodes whole lists with C functions."""

    def codeword(self, symbol: int) -> tuple[int, int]:
        """Returns a symbol's codeword as a number, whose lowest bit comes first, and the codeword's length in bits.

        Raises :class:`ImpossibleSymbolError` if the symbol has no codeword.
        """
        raise NotImplementedError

    def read(self, bit: Callable[[], int]) -> int:
        """Reads bits with ``bit`` until they are a codeword, and returns the codeword's symbol."""
        raise NotImplementedError

    def shortest(self) -> int:
        """Returns the length of the shortest codeword in bits."""
        raise NotImplementedError

    def longest(self) -> int:
        """Returns the length of the longest codeword in bits."""
        raise NotImplementedError

    def encoded(self, symbols: array[Any], stack: bool) -> Numbers:
        """Encodes symbols with a C function as a queue or as a stack, and returns the words."""
        raise NotImplementedError

    def decoded(self, words: array[Any], count: int, stack: bool) -> Numbers:
        """Decodes ``count`` symbols with a C function, from the words of a queue or of a stack."""
        raise NotImplementedError

    def num_symbols(self) -> int:
        """Returns the number of symbols. The symbols are 0, 1, .."""
        raise NotImplementedError

    def impossible(self, symbols: Any) -> ImpossibleSymbolError:
        """Returns the exception for the first of these symbols that has no codeword."""
        count = self.num_symbols()
        for place, symbol in enumerate(map(whole, listed_of(symbols))):
            if not 0 <= symbol < count:
                return impossible(symbol, None if is_one(symbols) else place, 0, count)
        raise AssertionError("each is a symbol")

    def symbols(self, symbols: Any) -> array[Any]:
        """Returns a list of symbols, or a single symbol, as a list for the C functions."""
        raise NotImplementedError
