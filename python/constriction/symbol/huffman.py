"""Huffman trees: codebooks in which a symbol with a greater weight has a codeword that isn't longer."""

from __future__ import annotations

import math
from array import array
from collections.abc import Callable
from ctypes import byref, c_size_t
from heapq import heapify, heappop, heappush
from typing import Any, TypeVar

from .. import errors
from .._buffers import SYMBOL, WORD, Answer, List, Numbers, answered, lent, room
from .._numbers import floats_of, is_one, listed_of, sequence_of, whole, wholes_of
from .._sizes import LARGE
from .._words import Words
from ._bits import bits_of
from ._codebook import Codebook

__all__ = ["DecoderHuffmanTree", "EncoderHuffmanTree"]

Self = TypeVar("Self", bound="_Tree")

#: The sum of the weights for floats, before rounding down. It is below 2^32.
_SHARES = 1 << 31
#: Powers of two are the weights of a canonical tree whose longest codeword has at most so many bits.
_MOST_OF_POWERS = 31
#: The greatest length of a codeword of a canonical tree. Its weights have a sum below 2^32.
_LONGEST = 44
_TOO_LARGE = "expected weights with a sum below 2^32, got a greater sum"


def _weights(probabilities: List) -> array[int]:
    """Returns whole numbers as they are, and floats as their shares of 2^31, rounded down."""
    if is_one(probabilities):
        raise TypeError(f"expected a list of weights, got {type(probabilities).__name__}")
    given = sequence_of(probabilities)
    try:
        return wholes_of(WORD, given)
    except OverflowError:
        for place, weight in enumerate(map(whole, listed_of(given))):
            if weight < 0:
                raise errors.WrongWeightsError(
                    f"expected a weight of at least 0, got {errors.shown(weight)} at place {place}"
                ) from None
        raise errors.WrongWeightsError(_TOO_LARGE) from None
    except TypeError:
        shares = floats_of(given)
    total = sum(shares)
    for place, share in enumerate(shares):
        if not 0 <= share < math.inf:
            raise errors.WrongWeightsError(
                f"expected a probability that is at least 0 and finite, got {share} at place {place}"
            )
    if not 0 < total < math.inf:
        raise errors.WrongWeightsError(f"expected probabilities with a finite sum above 0, got a sum of {total}")
    return array(WORD, (int(it / total * _SHARES) for it in shares))


class _Tree(Codebook):
    """The codebook of a Huffman tree.

    Each call of a C function builds the tree from the weights. For single symbols the same tree is built in Python.
    """

    def __init__(self, probabilities: List) -> None:
        """Creates the tree of these weights: whole numbers with a sum below 2^32, or floats.

        Whole numbers are used as they are. Floats are converted to shares in Python. This conversion isn't proved.

        Raises :class:`WrongWeightsError` if there are no weights, if their sum is too large, or if a weight is negative
        or not finite.
        """
        self._weights = _weights(probabilities)
        self._texts = {
            2: _TOO_LARGE if len(self._weights) else "expected at least one weight, got none",
            8: errors.CODEWORD_ENDED,
        }
        self._grown: tuple[list[tuple[int, int]], list[tuple[int, int]]] | None = None
        # Encodes no symbols: this only checks the weights.
        self.encoded(array(SYMBOL), False)

    @classmethod
    def from_lengths(cls: type[Self], lengths: List) -> Self:
        """Creates the canonical tree of these code lengths: the bits of the codeword of each symbol.

        The lengths alone determine the codewords, as in the DEFLATE format: in the order of strings, the shorter
        codewords come first, and those of one length in the order of their symbols. They are the codewords of the tree
        with the weights ``2^-length``.

        Raises :class:`WrongWeightsError` if no codewords have these lengths, if others would be left over, or if a length is
        above 44. Some trees with a length above 31 are refused too: whole weights for them have a sum of 2^32 or more.
        """
        if is_one(lengths):
            raise TypeError(f"expected a list of lengths, got {type(lengths).__name__}")
        given = list(map(whole, listed_of(lengths)))  # Of any size.
        for place, length in enumerate(given):
            if not 0 <= length <= _LONGEST:
                raise errors.WrongWeightsError(
                    f"expected a length between 0 and {_LONGEST}, got {errors.shown(length)} at place {place}"
                )
        longest = max(given, default=0)
        weights = [1 << longest - length for length in given]
        if sum(weights) != 1 << longest:
            raise errors.WrongWeightsError(
                f"expected lengths that fill a tree, got a share of {sum(weights) / (1 << longest):.6g}"
            )
        if longest > _MOST_OF_POWERS:
            of_lengths = _least_weights(given)
            weights = [of_lengths[length] for length in given]
            if sum(weights) >> 32:
                raise errors.WrongWeightsError(
                    f"expected lengths of a tree of weights with a sum below 2^32, got lengths that need a sum of {sum(weights)}"
                )
        return cls(weights)

    def code_lengths(self) -> Answer:
        """Returns the bits of the codeword of each symbol. ``from_lengths`` makes the canonical tree of them."""
        found: Answer = answered(Numbers(SYMBOL, (count for _, count in self._tree()[0])))
        return found

    def num_symbols(self) -> int:
        """Returns the number of symbols."""
        return len(self._weights)

    def _tree(self) -> tuple[list[tuple[int, int]], list[tuple[int, int]]]:
        """Returns the codewords, and the two children of each inner node.

        The first call builds the tree, and compares the codewords with those of the C function.
        """
        if self._grown is None:
            unions, codewords = _merged(self._weights)
            found = bits_of(self.encoded(array(SYMBOL, range(len(codewords))), False))
            place = 0
            for bits, count in codewords:
                if found.part(place, place + count) != bits:
                    raise RuntimeError("a codeword differs from the library's codeword")
                place += count
            if (place + 31) // 32 * 32 != found.length:
                raise RuntimeError("codewords differ from the library's codewords")
            self._grown = codewords, unions
        return self._grown

    def codeword(self, symbol: int) -> tuple[int, int]:
        if not 0 <= symbol < len(self._weights):
            raise self.impossible(symbol)
        return self._tree()[0][symbol]

    def read(self, bit: Callable[[], int]) -> int:
        leaves, unions = len(self._weights), self._tree()[1]
        node = 2 * leaves - 2
        while node >= leaves:
            node = unions[node - leaves][bit()]
        return node

    def shortest(self) -> int:
        return min(count for _, count in self._tree()[0])

    def longest(self) -> int:
        return max(count for _, count in self._tree()[0])

    def symbols(self, symbols: Any) -> array[Any]:
        given = symbols if is_one(symbols) else sequence_of(symbols)
        try:
            return array(SYMBOL, (whole(given),)) if is_one(given) else wholes_of(SYMBOL, given)
        except OverflowError:
            raise self.impossible(given) from None

    def encoded(self, symbols: array[Any], stack: bool) -> Numbers:
        weights, length, needed = self._weights, c_size_t(0), c_size_t(0)
        name = "huffman_encode_stack" if stack else "huffman_encode_queue"
        # The first call has room for one word for each symbol. Most lists need less.
        words = room(WORD, len(symbols) + 1)
        arguments = (lent(weights), len(weights), lent(symbols), len(symbols))
        try:
            LARGE.call(name, *arguments, lent(words), len(words), byref(length), byref(needed), texts=self._texts)
        except errors.NoSpaceError:
            words = room(WORD, needed.value)
            LARGE.call(name, *arguments, lent(words), len(words), byref(length), byref(needed), texts=self._texts)
        return Words(words, length.value).numbers()

    def decoded(self, words: array[Any], count: int, stack: bool) -> Numbers:
        found, weights = room(SYMBOL, count), self._weights
        name = "huffman_decode_stack" if stack else "huffman_decode_queue"
        texts = {**self._texts, 7: errors.NOT_ENOUGH_WORDS}
        LARGE.call(name, lent(weights), len(weights), lent(words), len(words), lent(found), count, texts=texts)
        return found


def _least_weights(lengths: list[int]) -> list[int]:
    """Returns a weight for each length. The tree of these weights has the codewords of the tree of the weights 2^-length.

    The lengths fill a tree. Its levels are looked at from the longest length on. The nodes of a level are its leaves and
    then its inner nodes, and they are merged in pairs. Each leaf weighs 1 more than the last node of the level below. So
    these nodes are merged before it. It doesn't weigh more than the first inner node, which is a sum of two such nodes.
    """
    longest = max(lengths)
    counts, weights = [0] * (longest + 1), [0] * (longest + 1)
    for length in lengths:
        counts[length] += 1
    inner: list[int] = []
    greatest = 0
    for length in range(longest, -1, -1):
        weights[length] = greatest + 1
        nodes = [weights[length]] * counts[length] + inner
        greatest, inner = nodes[-1], list(map(int.__add__, nodes[::2], nodes[1::2]))
    return weights


def _merged(weights: array[int]) -> tuple[list[tuple[int, int]], list[tuple[int, int]]]:
    """Returns the two children of each inner node, and the codewords.

    The two nodes with the least (weight, index) are merged first. An inner node's index is above all indexes before.
    """
    leaves = len(weights)
    heap = [(weight, i) for i, weight in enumerate(weights)]
    heapify(heap)
    unions: list[tuple[int, int]] = []
    while len(heap) > 1:
        (a, left), (b, right) = heappop(heap), heappop(heap)
        heappush(heap, (a + b, leaves + len(unions)))
        unions.append((left, right))
    codewords = [(0, 0)] * (leaves + len(unions))
    for node in range(leaves + len(unions) - 1, leaves - 1, -1):
        bits, count = codewords[node]
        left, right = unions[node - leaves]
        codewords[left], codewords[right] = (bits, count + 1), (bits | 1 << count, count + 1)
    return unions, codewords[:leaves]


class EncoderHuffmanTree(_Tree):
    """The Huffman tree of a list of weights, for encoding.

    >>> tree = EncoderHuffmanTree([2, 2, 4, 1, 1])
    >>> tree.code_lengths().tolist()
    [2, 2, 2, 3, 3]
    """


class DecoderHuffmanTree(_Tree):
    """The Huffman tree of a list of weights, for decoding.

    >>> DecoderHuffmanTree.from_lengths([2, 2, 2, 3, 3]).num_symbols()
    5
    """
