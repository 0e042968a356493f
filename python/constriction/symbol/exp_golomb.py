"""Exp-Golomb codewords of the numbers below 2^32."""

from __future__ import annotations

from array import array
from collections.abc import Callable
from ctypes import byref, c_size_t
from typing import Any

from .. import errors
from .._buffers import WORD, Numbers, lent, room
from .._numbers import is_one, sequence_of, whole, wholes_of
from .._sizes import LARGE
from .._words import Words
from ._codebook import Codebook

__all__ = ["ExpGolomb"]


class ExpGolomb(Codebook):
    """The codebook of Exp-Golomb codewords for the numbers below 2^32.

    If ``n + 1`` has ``k + 1`` bits, the codeword of ``n`` is ``k`` zeros and then the bits of ``n + 1``, highest first.

    >>> from constriction.symbol import QueueEncoder
    >>> encoder = QueueEncoder()
    >>> encoder.encode([0, 5, 7], ExpGolomb())  # the codewords 1, 00110 and 0001000
    >>> words, bits = encoder.get_compressed()
    >>> words.tolist(), bits
    ([537], 13)
    """

    def codeword(self, symbol: int) -> tuple[int, int]:
        if not 0 <= symbol < 1 << 32:
            raise self.impossible(symbol)
        digits = format(symbol + 1, "b")
        return int(digits[::-1], 2) << (len(digits) - 1), 2 * len(digits) - 1

    def read(self, bit: Callable[[], int]) -> int:
        zeros = 0
        while not bit():
            zeros += 1
            if zeros > 32:
                raise errors.InvalidDataError(errors.INVALID_CODEWORD)
        number = 1
        for _ in range(zeros):
            number = 2 * number + bit()
        if number > 1 << 32:
            raise errors.InvalidDataError(errors.INVALID_CODEWORD)
        return number - 1

    def shortest(self) -> int:
        return 1

    def longest(self) -> int:
        return 65

    def num_symbols(self) -> int:
        return 1 << 32

    def symbols(self, symbols: Any) -> array[Any]:
        given = symbols if is_one(symbols) else sequence_of(symbols)
        try:
            return array(WORD, (whole(given),)) if is_one(given) else wholes_of(WORD, given)
        except OverflowError:
            raise self.impossible(given) from None

    def encoded(self, symbols: array[Any], stack: bool) -> Numbers:
        count = len(symbols)
        words, length, needed = room(WORD, 3 * count + 1), c_size_t(0), c_size_t(0)  # A codeword has at most 65 bits.
        name = "exp_golomb_encode_stack" if stack else "exp_golomb_encode_queue"
        LARGE.call(name, lent(symbols), count, lent(words), len(words), byref(length), byref(needed))
        return Words(words, length.value).numbers()

    def decoded(self, words: array[Any], count: int, stack: bool) -> Numbers:
        found = room(WORD, count)
        name = "exp_golomb_decode_stack" if stack else "exp_golomb_decode_queue"
        texts = {7: errors.INVALID_CODEWORD, 8: errors.CODEWORD_ENDED}
        LARGE.call(name, lent(words), len(words), lent(found), count, texts=texts)
        return found
