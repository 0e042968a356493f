"""The C functions at one size of words, over lists of numbers."""

from __future__ import annotations

import ctypes
from ctypes import Structure, byref, c_size_t, c_uint16, c_uint32, c_uint64
from typing import Any, NamedTuple

#: The reasons of refusals, by the codes of include/constriction.h.
REFUSALS = {1: "impossible", 7: "invalid", 8: "out"}


class Refused(Exception):
    """A call was refused. `args[0]` is the reason."""


class Stack(NamedTuple):
    """A stack coder: words, and the head above them."""

    words: list[int]
    head: int


class Chain(NamedTuple):
    """A chain coder: words on both sides, and the two heads."""

    compressed: list[int]
    remainders: list[int]
    heads: tuple[int, int]


def structures(word: Any, state: Any) -> tuple[Any, Any, Any]:
    """Returns the structs of a range encoder, a range decoder and a chain coder's heads."""

    class Encoder(Structure):
        _fields_ = [("lower", state), ("range", state), ("held", c_size_t), ("first", word)]

    class Decoder(Structure):
        _fields_ = [("lower", state), ("range", state), ("point", state), ("pos", c_size_t)]

    class Heads(Structure):
        _fields_ = [("remainders", state), ("compressed", word)]

    return Encoder, Decoder, Heads


class Library:
    """The C functions of the shared object `path` for words of `bits` bits."""

    def __init__(self, path: str, bits: int) -> None:
        self.bits, self.precision = bits, {16: 12, 32: 24}[bits]
        self.word, self.state = {16: (c_uint16, c_uint32), 32: (c_uint32, c_uint64)}[bits]
        self.Encoder, self.Decoder, self.Heads = structures(self.word, self.state)
        self._functions = ctypes.CDLL(path)

    def call(self, name: str, *arguments: Any) -> None:
        """Calls the function of this name. Raises Refused unless it returns CONSTRICTION_DONE."""
        code = getattr(self._functions, f"constriction_{name}_u{self.bits}")(*arguments)
        if code:
            raise Refused(REFUSALS.get(code, f"code {code} of {name}"))

    def read(self, words: list[int]) -> tuple[Any, c_size_t]:
        """Returns the arguments for a list of words that a call reads."""
        return (self.word * len(words))(*words), c_size_t(len(words))

    def room(self, words: list[int], more: int) -> tuple[Any, c_size_t, c_size_t]:
        """Returns a buffer with these words and room for more, its length, and the number of words in use."""
        buffer = (self.word * (len(words) + more))(*words)
        return buffer, c_size_t(len(buffer)), c_size_t(len(words))

    def rows(self, name: str, tables: list[list[int]], count: int) -> tuple[str, list[Any]]:
        """Returns the call's name and its arguments for the weights, of one table for all symbols or one for each."""
        if len(tables) == 1:
            return name.replace("_each", ""), list(self.read(tables[0]))
        weights = [weight for i in range(count) for weight in tables[i]]
        return name, [*self.read(weights), c_size_t(len(tables[0]))]


def symbols_of(symbols: list[int]) -> tuple[Any, c_size_t]:
    """Returns the arguments for a list of symbols that a call reads."""
    return (c_size_t * len(symbols))(*symbols), c_size_t(len(symbols))


class Ours:
    """The coders at one size, by calls that take and return lists. A refusal raises Refused."""

    def __init__(self, library: Library) -> None:
        self._c = library
        self.bits, self.precision = library.bits, library.precision

    def ans(self, kind: str, words: list[int]) -> Stack:
        """Returns the stack coder of these words."""
        length, head = c_size_t(0), self._c.state(0)
        self._c.call(f"ans_from_{kind}", *self._c.read(words), byref(length), byref(head))
        return Stack(words[: length.value], head.value)

    def ans_encode(self, coder: Stack, tables: list[list[int]], symbols: list[int]) -> Stack:
        """Returns the coder after it encoded these symbols, the last one first."""
        head, needed = self._c.state(coder.head), c_size_t(0)
        buffer, capacity, length = self._c.room(coder.words, len(symbols))
        name, weights = self._c.rows("ans_encode_each_reverse", tables, len(symbols))
        arguments = [byref(head), buffer, capacity, byref(length), *weights, *symbols_of(symbols), byref(needed)]
        self._c.call(name, *arguments)
        return Stack(list(buffer[: length.value]), head.value)

    def ans_decode(self, coder: Stack, tables: list[list[int]], count: int) -> tuple[list[int], Stack]:
        """Returns `count` decoded symbols, and the coder after them."""
        head, length, symbols = self._c.state(coder.head), c_size_t(len(coder.words)), (c_size_t * count)()
        name, weights = self._c.rows("ans_decode_each", tables, count)
        self._c.call(name, byref(head), *self._c.read(coder.words), byref(length), *weights, symbols, c_size_t(count))
        return list(symbols), Stack(coder.words[: length.value], head.value)

    def ans_words(self, coder: Stack, kind: str) -> list[int]:
        """Returns the coder's words."""
        buffer, capacity, length = self._c.room(coder.words, 2)
        head, needed = self._c.state(coder.head), c_size_t(0)
        self._c.call(f"ans_into_{kind}", head, buffer, capacity, byref(length), byref(needed))
        return list(buffer[: length.value])

    def range_encoder(self) -> Any:
        """Returns the state of a new range encoder."""
        encoder = self._c.Encoder()
        self._c.call("range_encoder", byref(encoder))
        return encoder

    def range_encode(self, encoder: Any, words: list[int], tables: list[list[int]], symbols: list[int]) -> list[int]:
        """Encodes symbols, and returns the words that the encoder has written."""
        buffer, capacity, length = self._c.room(words, encoder.held + len(symbols))
        name, weights = self._c.rows("range_encode_each", tables, len(symbols))
        needed = c_size_t(0)
        arguments = [byref(encoder), buffer, capacity, byref(length), *weights, *symbols_of(symbols), byref(needed)]
        self._c.call(name, *arguments)
        return list(buffer[: length.value])

    def range_words(self, encoder: Any, words: list[int]) -> list[int]:
        """Returns the sealed words."""
        buffer, capacity, length = self._c.room(words, encoder.held + 2)
        self._c.call("range_into_compressed", byref(encoder), buffer, capacity, byref(length), byref(c_size_t(0)))
        return list(buffer[: length.value])

    def range_decode(self, words: list[int], tables: list[list[int]], count: int) -> list[int]:
        """Returns the first `count` symbols of these words."""
        decoder, data, symbols = self._c.Decoder(), self._c.read(words), (c_size_t * count)()
        self._c.call("range_from_compressed", *data, byref(decoder))
        name, weights = self._c.rows("range_decode_each", tables, count)
        self._c.call(name, byref(decoder), *data, *weights, symbols, c_size_t(count))
        return list(symbols)

    def chain(self, kind: str, words: list[int]) -> Chain:
        """Returns the chain coder of these words."""
        length, heads = c_size_t(0), self._c.Heads()
        self._c.call(f"chain_from_{kind}", *self._c.read(words), byref(length), byref(heads))
        below, both = words[: length.value], (heads.remainders, heads.compressed)
        return Chain([], below, both) if kind == "remainders" else Chain(below, [], both)

    def chain_encode(self, coder: Chain, tables: list[list[int]], symbols: list[int]) -> Chain:
        """Returns the coder after it encoded these symbols, the last one first."""
        heads, needed = self._c.Heads(*coder.heads), c_size_t(0)
        buffer, capacity, length = self._c.room(coder.compressed, len(symbols))
        remainders, rest = self._c.read(coder.remainders), c_size_t(len(coder.remainders))
        name, weights = self._c.rows("chain_encode_each_reverse", tables, len(symbols))
        sides = [buffer, capacity, byref(length), *remainders, byref(rest)]
        self._c.call(name, byref(heads), *sides, *weights, *symbols_of(symbols), byref(needed))
        both = heads.remainders, heads.compressed
        return Chain(list(buffer[: length.value]), coder.remainders[: rest.value], both)

    def chain_decode(self, coder: Chain, tables: list[list[int]], count: int) -> tuple[list[int], Chain]:
        """Returns `count` decoded symbols, and the coder after them."""
        heads, needed, symbols = self._c.Heads(*coder.heads), c_size_t(0), (c_size_t * count)()
        data, rest = self._c.read(coder.compressed), c_size_t(len(coder.compressed))
        buffer, capacity, length = self._c.room(coder.remainders, count)
        name, weights = self._c.rows("chain_decode_each", tables, count)
        sides = [*data, byref(rest), buffer, capacity, byref(length)]
        self._c.call(name, byref(heads), *sides, *weights, symbols, c_size_t(count), byref(needed))
        both = heads.remainders, heads.compressed
        return list(symbols), Chain(coder.compressed[: rest.value], list(buffer[: length.value]), both)

    def chain_words(self, coder: Chain, kind: str) -> tuple[list[int], list[int]]:
        """Returns the words of the other side, and the words of this side followed by the words of the heads."""
        other, side = coder.remainders, coder.compressed
        if kind == "remainders":
            other, side = side, other
        buffer, capacity, length = self._c.room(side, 3)
        heads, needed = self._c.Heads(*coder.heads), c_size_t(0)
        self._c.call(f"chain_into_{kind}", byref(heads), buffer, capacity, byref(length), byref(needed))
        return other, list(buffer[: length.value])

    def golomb_encode(self, order: str, numbers: list[int]) -> list[int]:
        """Returns the words of the numbers' codewords."""
        room = self._c.room([], 3 * len(numbers) + 1)
        return self._put(f"exp_golomb_encode_{order}", self._c.read(numbers), room)

    def golomb_decode(self, order: str, words: list[int], count: int) -> list[int]:
        """Returns the first `count` numbers whose codewords the words have."""
        numbers = (self._c.word * count)()
        self._c.call(f"exp_golomb_decode_{order}", *self._c.read(words), numbers, c_size_t(count))
        return list(numbers)

    def huffman_encode(self, order: str, weights: list[int], symbols: list[int]) -> list[int]:
        """Returns the words of the symbols' codewords."""
        tree = (c_uint32 * len(weights))(*weights), c_size_t(len(weights))
        room = self._c.room([], len(weights) * len(symbols) // 16 + 2)
        return self._put(f"huffman_encode_{order}", (*tree, *symbols_of(symbols)), room)

    def huffman_decode(self, weights: list[int], order: str, words: list[int], count: int) -> list[int]:
        """Returns the first `count` symbols whose codewords the words have."""
        tree = (c_uint32 * len(weights))(*weights), c_size_t(len(weights))
        symbols = (c_size_t * count)()
        self._c.call(f"huffman_decode_{order}", *tree, *self._c.read(words), symbols, c_size_t(count))
        return list(symbols)

    def _put(self, name: str, given: tuple[Any, ...], room: tuple[Any, c_size_t, c_size_t]) -> list[int]:
        """Returns the words that this call writes to the beginning of a buffer."""
        buffer, capacity, length = room
        self._c.call(name, *given, buffer, capacity, byref(length), byref(c_size_t(0)))
        return list(buffer[: length.value])
