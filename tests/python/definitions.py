"""The coders by their definitions over whole numbers and lists, slow and plain. This file doesn't use the library.

The classes are coders over backends, at any sizes. A backend has the methods of `Words`; one that refuses calls raises
`Refused`. A step computes its numbers first, and assigns them after its last call of a backend, so a refusal leaves the
numbers unchanged. The functions code whole lists. Their words have 32 bits, their states 64, and the precision is 24
bits, unless `at_size` sets others.
"""

from __future__ import annotations

import random
from typing import Any, NamedTuple, Optional, Sequence

WORD, PRECISION = 1 << 32, 1 << 24
STATE, LEAST = WORD * WORD, WORD


def at_size(size: int, precision: int) -> None:
    """Sets the sizes of the functions: words of `size` bits, states of two words, and a precision."""
    global WORD, PRECISION, STATE, LEAST
    WORD, PRECISION = 1 << size, 1 << precision
    STATE, LEAST = WORD * WORD, WORD


class Sizes(NamedTuple):
    """The bits of a word, of a state, and of the precision."""

    word: int
    state: int
    precision: int

    @property
    def least(self) -> int:
        """The least head of a normalized state, and the least range of a range coder."""
        return 1 << self.state - self.word


def sizes() -> Sizes:
    """Returns the sizes of the functions."""
    return Sizes(*(it.bit_length() - 1 for it in (WORD, STATE, PRECISION)))


class Refused(Exception):
    """A backend refused a call."""


class Missing(Exception):
    """A word is needed and none is left, or no symbol has the bits."""


class Words:
    """A backend that refuses nothing. A stack reads the last word, a queue the first one."""

    def __init__(self, words: Sequence[int] = ()) -> None:
        self.words = list(words)

    def prepare(self, count: int) -> None:
        """Makes room for words."""

    def write(self, word: int) -> None:
        """Writes a word after the others."""
        self.words.append(word)

    def append(self, words: Sequence[int]) -> None:
        """Makes room for words and writes them."""
        if words:
            self.prepare(len(words))
        for word in words:
            self.write(word)

    def read(self, place: int = -1) -> Optional[int]:
        """Removes and returns the word at a place, or returns None if there is no word."""
        return self.words.pop(place) if self.words else None


def entry(weights: Sequence[int], symbol: int) -> tuple[int, int]:
    """Returns the start and the length of a symbol's interval."""
    return sum(weights[:symbol]), weights[symbol]


def entry_at(weights: Sequence[int], quantile: int) -> tuple[int, int, int]:
    """Returns the symbol whose interval holds a quantile, and the interval's start and length."""
    left = 0
    for symbol, weight in enumerate(weights):
        if quantile < left + weight:
            return symbol, left, weight
        left += weight
    raise Missing


def words_of(number: int, size: int, count: Optional[int] = None) -> list[int]:
    """Returns the words of a number, the lowest first: `count` of them, or all but leading zeros."""
    count = -(-number.bit_length() // size) if count is None else count
    return [number >> size * place & (1 << size) - 1 for place in range(count)]


# ---- the stack coder ----


class Stack:
    """A stack coder: a head, and a backend with the words below it."""

    def __init__(self, sizes: Sizes, side: Any, head: int = 0) -> None:
        self.sizes, self.side, self.head = sizes, side, head

    def put(self, weights: Sequence[int], symbol: int) -> None:
        """Encodes a symbol: the new state is the only valid one whose decode returns the symbol and the old state."""
        (left, weight), head = entry(weights, symbol), self.head
        if head >> self.sizes.state - self.sizes.precision >= weight:
            self.side.append([head % (1 << self.sizes.word)])
            head >>= self.sizes.word
        self.head = (head // weight << self.sizes.precision) + left + head % weight

    def take(self, weights: Sequence[int]) -> int:
        """Decodes a symbol. If the head gets too small, a word moves in."""
        above, quantile = divmod(self.head, 1 << self.sizes.precision)
        symbol, left, weight = entry_at(weights, quantile)
        head = above * weight + quantile - left
        word = self.side.read() if head < self.sizes.least else None
        self.head = head if word is None else (head << self.sizes.word) + word
        return symbol

    def fill(self, head: int) -> None:
        """Sets the head to a number into which words move until the head is large enough."""
        while head < self.sizes.least:
            word = self.side.read()
            if word is None:
                break
            head = (head << self.sizes.word) + word
        self.head = head

    def import_compressed(self) -> None:
        """Reads the head in compressed form. The first word that is read isn't 0."""
        top = self.side.read()
        if top == 0:
            raise Missing
        self.fill(top or 0)

    def import_binary(self) -> None:
        """Reads the head in binary form: the head begins with a 1."""
        self.fill(1)


# ---- the range coder ----


class Encoder:
    """A range encoder by one growing number: its interval, without carries.

    The interval begins at `start` and was shifted by `shifts` words. `written` words of the number are on the backend.
    The others are pending: the last word and the words of ones before it, as long as a number of the interval has other
    words.
    """

    def __init__(self, sizes: Sizes, side: Any, start: int = 0, length: Optional[int] = None, shifts: int = 0) -> None:
        self.sizes, self.side, self.start, self.shifts, self.written = sizes, side, start, shifts, 0
        self.length = (1 << sizes.state) - 1 if length is None else length

    @property
    def lower(self) -> int:
        """The start of the interval without the words that were shifted out."""
        return self.start % (1 << self.sizes.state)

    def digits(self, number: int, count: int) -> list[int]:
        """Returns the words of a number after the written ones, the highest first."""
        return words_of(number, self.sizes.word, count - self.written)[::-1]

    def held(self) -> list[int]:
        """Returns the pending words."""
        return self.digits(self.start >> self.sizes.state, self.shifts)

    def put(self, weights: Sequence[int], symbol: int) -> None:
        """Narrows the interval to a symbol's part, and writes the words that no further symbol can change."""
        (left, weight), unit = entry(weights, symbol), self.length >> self.sizes.precision
        start, length, shifts = self.start + unit * left, unit * weight, self.shifts
        if length < self.sizes.least:
            start, length, shifts = start << self.sizes.word, length << self.sizes.word, shifts + 1
        words, kept = self.digits(start >> self.sizes.state, shifts), 0
        if start % (1 << self.sizes.state) + length >= 1 << self.sizes.state:
            while words[-1 - kept] == (1 << self.sizes.word) - 1:
                kept += 1
            kept += 1
        settled = words[: len(words) - kept]
        self.side.append(settled)
        self.start, self.length, self.shifts, self.written = start, length, shifts, self.written + len(settled)

    def sealed(self, is_delimited: bool = False) -> list[int]:
        """Returns the words of an export after the written ones, or of a self-delimiting export."""
        if not self.shifts and self.length == (1 << self.sizes.state) - 1:
            return []
        unit, end = self.sizes.least, self.start + self.length
        number = -(-self.start // unit)
        if is_delimited:
            zeros = next(it for it in range(self.sizes.state) if number * unit + (unit >> self.sizes.word * it) <= end)
        else:
            zeros = int(end // unit == number)
        return self.digits(number, self.shifts + 1) + [0] * zeros


class Decoder:
    """A range decoder: its interval modulo a state, and the point, which is the number of the words that were read."""

    def __init__(
        self, sizes: Sizes, side: Any, interval: Optional[tuple[int, int]] = None, point: Optional[int] = None
    ) -> None:
        self.sizes, self.side = sizes, side
        self.lower, self.length = interval or (0, (1 << sizes.state) - 1)
        self.point = self.begin() if point is None else point

    def next_word(self) -> int:
        """Reads a word. After the last word there are zeros."""
        word = self.side.read(0)
        return 0 if word is None else word

    def begin(self) -> int:
        """Reads the words of a state, and returns their number."""
        point = 0
        for _ in range(self.sizes.state // self.sizes.word):
            point = (point << self.sizes.word) + self.next_word()
        return point

    def distance(self) -> int:
        """Returns the distance of the point from the start of the interval."""
        return (self.point - self.lower) % (1 << self.sizes.state)

    def take(self, weights: Sequence[int]) -> int:
        """Decodes a symbol: the one whose part of the interval has the point."""
        unit = self.length >> self.sizes.precision
        symbol, left, weight = entry_at(weights, self.distance() // unit)
        lower, length, point = self.lower + unit * left, unit * weight, self.point
        if length < self.sizes.least:
            lower, length = lower << self.sizes.word, length << self.sizes.word
            point = (point << self.sizes.word) + self.next_word()
        bound = 1 << self.sizes.state
        self.lower, self.length, self.point = lower % bound, length, point % bound
        return symbol

    def may_be_exhausted(self) -> bool:
        """Returns whether no word is left and the point could be a seal's."""
        is_near = self.length == (1 << self.sizes.state) - 1 or self.distance() < 2 * self.sizes.least - 1
        return not self.side.words and is_near


# ---- the chain coder ----


class Chain:
    """A chain coder: bits left over from words as a text, and the number of the remainders, each above a backend."""

    def __init__(self, sizes: Sizes, words: Any, rest: Any, bits: str = "", number: int = 0) -> None:
        self.sizes, self.words, self.rest, self.bits, self.number = sizes, words, rest, bits, number

    @property
    def least(self) -> int:
        """The least number of the remainders."""
        return 1 << self.sizes.state - self.sizes.word - self.sizes.precision

    @property
    def quantiles_head(self) -> int:
        """The bits left over as a number: a 1, and then the bits."""
        return int("1" + self.bits, 2)

    def take(self, weights: Sequence[int]) -> int:
        """Decodes a symbol: the one of the next bits. Its choice among its quantiles moves into the remainders."""
        bits, size = self.bits, self.sizes.precision
        if len(bits) < size:
            self.rest.prepare(1)
            bits += format(needed(self.words.read()), f"0{self.sizes.word}b")
            quantile, bits = int(bits[-size:], 2), bits[:-size]
        else:
            bits, quantile = bits[:-size], int(bits[-size:], 2)
        symbol, left, weight = entry_at(weights, quantile)
        number = self.number * weight + quantile - left
        if number >= self.least << self.sizes.word:
            self.rest.write(number % (1 << self.sizes.word))
            number >>= self.sizes.word
        self.bits, self.number = bits, number
        return symbol

    def put(self, weights: Sequence[int], symbol: int) -> None:
        """Encodes a symbol: the inverse of a decode."""
        (left, weight), number, size = entry(weights, symbol), self.number, self.sizes.word
        if len(self.bits) + self.sizes.precision >= size:
            self.words.prepare(1)
        if number < weight * self.least:
            number = (number << size) + needed(self.rest.read())
        bits = self.bits + format(left + number % weight, f"0{self.sizes.precision}b")
        if len(bits) >= size:
            self.words.write(int(bits[-size:], 2))
            bits = bits[:-size]
        self.bits, self.number = bits, number // weight

    def move_out(self) -> None:
        """Moves the lowest word of the number to the remainders, for a higher precision."""
        self.rest.write(self.number % (1 << self.sizes.word))
        self.number >>= self.sizes.word

    def move_in(self) -> None:
        """Moves a word of the remainders into the number, for a lower precision."""
        self.number = (self.number << self.sizes.word) + needed(self.rest.read())

    def begin(self, number: Optional[int] = None) -> None:
        """Reads the number from the words. Without a given beginning, its first word isn't 0."""
        number = needed(self.words.read()) if number is None else number
        if number == 0:
            raise Missing
        while number < self.least:
            number = (number << self.sizes.word) + needed(self.words.read())
        self.number = number


def needed(word: Optional[int]) -> int:
    """Returns a word, if there is one."""
    if word is None:
        raise Missing
    return word


# ---- bits and codewords ----


class Bits:
    """A bit coder. It fills words from their lowest bit up, and has the bits of the word that isn't on the backend."""

    def __init__(self, size: int, side: Any, is_stack: bool) -> None:
        self.size, self.side, self.is_stack, self.last = size, side, is_stack, ""

    def bits_of(self, word: int) -> str:
        """Returns the bits of a word, the lowest first."""
        return format(word, f"0{self.size}b")[::-1]

    def last_word(self) -> int:
        """Returns the word of the bits that aren't on the backend."""
        return int(self.last.ljust(self.size, "0")[::-1], 2)

    def write(self, bits: str) -> None:
        """Writes bits, and each full word when the next bit comes."""
        for bit in bits:
            if len(self.last) == self.size:
                self.side.write(self.last_word())
                self.last = ""
            self.last += bit

    def read(self) -> Optional[str]:
        """Reads a bit, or returns None if there is none: a stack's last bit, or a queue's first one."""
        if not self.last:
            word = self.side.read(-1 if self.is_stack else 0)
            if word is None:
                return None
            self.last = self.bits_of(word)
        bit = self.last[-1 if self.is_stack else 0]
        self.last = self.last[:-1] if self.is_stack else self.last[1:]
        return bit

    def need(self) -> str:
        """Reads a bit that has to be there."""
        bit = self.read()
        if bit is None:
            raise Missing
        return bit

    def open_stack(self) -> None:
        """Reads the last word of a stack. The highest bit that is set ends the bits."""
        word = self.side.read()
        self.last = "" if word is None else self.bits_of(word).rstrip("0")[:-1]

    def close(self) -> None:
        """Writes the last word. A stack ends with a 1."""
        if self.is_stack:
            self.write("1")
        if self.last:
            self.side.write(self.last_word())

    def rest(self) -> str:
        """Returns all bits of a queue that are left."""
        return self.last + "".join(map(self.bits_of, self.side.words))

    def number(self, size: int) -> Optional[int]:
        """Reads the Exp-Golomb codeword of a number below `2^size`, or returns None if no such codeword begins so."""
        zeros = 0
        while self.need() == "0":
            zeros += 1
            if zeros > size:
                return None
        number = int("1" + "".join([self.need() for _ in range(zeros)]), 2) - 1
        return number if number < 1 << size else None

    def symbol(self, codewords: dict[str, int]) -> int:
        """Reads a codeword of a prefix-free codebook, and returns its symbol."""
        bits = self.need()
        while bits not in codewords:
            bits += self.need()
        return codewords[bits]


def golomb_codeword(number: int) -> str:
    """Returns the Exp-Golomb codeword of a number."""
    bits = format(number + 1, "b")
    return "0" * (len(bits) - 1) + bits


def huffman_codewords(weights: list[int]) -> list[str]:
    """Returns the codewords of the tree that merges the two least by (weight, index)."""
    trees = [(weight, i, {i: ""}) for i, weight in enumerate(weights)]
    following = len(weights)
    while len(trees) > 1:
        trees.sort(key=lambda it: it[:2])
        (a, _, left), (b, _, right), *trees = trees
        codewords = {i: "0" + it for i, it in left.items()} | {i: "1" + it for i, it in right.items()}
        trees.append((a + b, following, codewords))
        following += 1
    return [codeword for _, codeword in sorted(trees[0][2].items())]


# ---- lists ----


def ans_words(tables: list[list[int]], symbols: list[int]) -> list[int]:
    """Returns a stack coder's words after it encodes symbols, the last one first, each with its own weights."""
    coder = Stack(sizes(), Words())
    for weights, symbol in reversed(list(zip(tables, symbols))):
        coder.put(weights, symbol)
    return coder.side.words + words_of(coder.head, coder.sizes.word)


def ans_decode(tables: list[list[int]], words: list[int]) -> tuple[list[int], list[int]]:
    """Returns the symbols that a stack coder decodes, each with its own weights, and the words that are left."""
    coder = Stack(sizes(), Words(words))
    coder.import_compressed()
    symbols = [coder.take(weights) for weights in tables]
    return symbols, coder.side.words + words_of(coder.head, coder.sizes.word)


def encoder_of(tables: list[list[int]], symbols: list[int]) -> Encoder:
    """Returns a range encoder after it encodes symbols, each with its own weights."""
    encoder = Encoder(sizes(), Words())
    for weights, symbol in zip(tables, symbols):
        encoder.put(weights, symbol)
    return encoder


def range_position(tables: list[list[int]], symbols: list[int]) -> tuple[int, int, int]:
    """Returns the position of a range encoder after symbols: a number of words, and the interval's start and length."""
    encoder = encoder_of(tables, symbols)
    return encoder.shifts, encoder.lower, encoder.length


def range_words(tables: list[list[int]], symbols: list[int]) -> list[int]:
    """Returns the words of a range encoder after symbols: the digits of one growing number."""
    encoder = encoder_of(tables, symbols)
    return encoder.side.words + encoder.sealed()


def chain_split(tables: list[list[int]], words: list[int]) -> tuple[list[int], list[int], list[int]]:
    """Returns the symbols that a chain coder decodes from words, the words that are left, and the remainders."""
    coder = Chain(sizes(), Words(words), Words())
    coder.begin()
    symbols = [coder.take(weights) for weights in tables]
    remainders = coder.rest.words + words_of(coder.number, coder.sizes.word)
    return symbols, coder.words.words, [*remainders, coder.quantiles_head]


def queue_words(bits: str) -> list[int]:
    """Returns the words of a queue of bits."""
    coder = Bits(sizes().word, Words(), False)
    coder.write(bits)
    coder.close()
    return coder.side.words


def stack_words(bits: str) -> list[int]:
    """Returns the words of a stack of bits."""
    coder = Bits(sizes().word, Words(), True)
    coder.write(bits)
    coder.close()
    return coder.side.words


def random_weights(dice: random.Random, kinds: int) -> list[int]:
    """Returns weights that add up to the precision's quantiles, some of them 0."""
    ends = sorted(dice.choice((0, 1, 2, PRECISION // 2, dice.randrange(PRECISION + 1))) for _ in range(kinds - 1))
    return [b - a for a, b in zip([0, *ends], [*ends, PRECISION])]


def random_symbol(dice: random.Random, weights: list[int]) -> int:
    """Returns a symbol whose weight isn't 0."""
    return dice.choice([i for i, weight in enumerate(weights) if weight])
