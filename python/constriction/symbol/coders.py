"""Coders of codewords: a queue of bits, and a stack of bits."""

from __future__ import annotations

from collections.abc import Callable
from typing import Any, NamedTuple, SupportsIndex, overload

from .. import errors
from .._buffers import SYMBOL, Answer, Compressed, Numbers, Symbols, answered, room
from .._coder import Coder
from .._numbers import count_of, is_one, sequence_of, whole, words_of
from ._bits import Bits, bits_of, words_with
from ._codebook import Codebook, codebook_wanted

__all__ = ["QueueDecoder", "QueueEncoder", "StackCoder"]

#: The least length of a list that the C functions encode or decode. Python code does shorter lists.
_LONG = 64


def _symbol_codeword(symbol: Any, codebook: Codebook) -> tuple[int, int]:
    codebook_wanted(codebook)
    return codebook.codeword(whole(symbol))


def _all_or_nothing(coder: Coder, given: Any, codebook: Codebook, change: Callable[[Bits], tuple[Bits, None]]) -> None:
    """Makes a change. If it fails, raises an exception that names the symbol without a codeword."""
    try:
        coder._changed(change)
    except errors.ImpossibleSymbolError:
        raise codebook.impossible(given) from None


def _parts_of(compressed: Any) -> tuple[Any, int | None]:
    """Returns words and a number of bits, or None for the number if there are only words."""
    if isinstance(compressed, tuple) and len(compressed) == 2 and not is_one(compressed[0]):
        return compressed[0], count_of(compressed[1])
    return compressed, None


class _Place(NamedTuple):
    """Bits, and the number of bits that were read."""

    bits: Bits
    place: int


class QueueEncoder(Coder):
    """Encodes codewords one after another. The first is decoded first. Each symbol can have a codebook of its own.

    >>> from constriction.symbol import ExpGolomb
    >>> encoder = QueueEncoder()
    >>> encoder.encode([0, 5, 7], ExpGolomb())
    >>> encoder.get_compressed()[0].tolist()
    [537]
    """

    def __init__(self) -> None:
        """Creates an encoder that has encoded no symbols."""
        self._begin(Bits(bytearray(), 0))

    def encode(self, symbols: Symbols, codebook: Codebook) -> None:
        """Encodes a symbol, or a list of symbols in order.

        Raises :class:`ImpossibleSymbolError` if a symbol has no codeword. After an error the encoder is unchanged.
        """
        codebook_wanted(codebook)
        if is_one(symbols):
            return self.encode_symbol(symbols, codebook)  # type: ignore[arg-type]
        given = sequence_of(symbols)
        listed = codebook.symbols(given)

        def change(bits: Bits) -> tuple[Bits, None]:
            if len(listed) < _LONG:
                for symbol in listed:
                    bits = bits.put(*codebook.codeword(symbol))
                return bits, None
            words = bits_of(codebook.encoded(listed, False))
            count = sum(codebook.codeword(it)[1] for it in listed)
            return bits.put(words.part(0, count), count), None

        _all_or_nothing(self, given, codebook, change)

    def encode_symbol(self, symbol: SupportsIndex, codebook: Codebook) -> None:
        """Encodes one symbol."""
        codeword = _symbol_codeword(symbol, codebook)
        self._changed(lambda bits: (bits.put(*codeword), None))

    def get_compressed(self) -> tuple[Answer, int]:
        """Returns the words, and the total number of bits of all codewords.

        Zero bits fill the last word.
        """
        words, count = self._asked(lambda bits: (words_with(bits.part(0, bits.length), bits.length), bits.length))
        return answered(words), count

    def pos(self) -> int:
        """Returns the position, for a decoder's ``seek``: the number of bits of all codewords so far."""
        return self._state.length  # type: ignore[no-any-return]

    def get_decoder(self) -> QueueDecoder:
        """Returns a decoder of the symbols that were encoded so far."""
        return QueueDecoder(self._asked(lambda bits: words_with(bits.part(0, bits.length), bits.length)))

    def _said(self, state: Bits) -> str:
        return f"{state.length} bits"

    def _plain(self, state: Bits) -> tuple[Any, ...]:
        return bytes(state.clone().memory), state.length

    def _unplain(self, plain: tuple[Any, ...]) -> Bits:
        return Bits(bytearray(plain[0]), plain[1])


class QueueDecoder(Coder):
    """Decodes codewords in the order of encoding. Each symbol can have a codebook of its own.

    >>> from constriction.symbol import ExpGolomb, QueueEncoder
    >>> encoder = QueueEncoder()
    >>> encoder.encode([0, 5], ExpGolomb())
    >>> place = encoder.pos()
    >>> encoder.encode(7, ExpGolomb())
    >>> decoder = QueueDecoder(encoder.get_compressed())
    >>> decoder.seek(place)
    >>> decoder.decode(ExpGolomb())
    7
    """

    def __init__(self, compressed: Compressed) -> None:
        """Creates a decoder at the beginning of ``compressed``, words or the pair that ``get_compressed`` returned.

        The decoder copies the words. After a pair's number of bits, the data end. Without a number, they end after the
        last word, so a decoder may read zeros that fill it.

        Raises :class:`WrongLengthError` if the words have fewer bits than the number.
        """
        words, count = _parts_of(compressed)
        bits = bits_of(words)
        if count is not None and count > bits.length:
            raise errors.WrongLengthError(f"expected words with {count} bits, got words with {bits.length} bits")
        self._begin(_Place(bits if count is None else Bits(bits.memory, count), 0))

    def pos(self) -> int:
        """Returns the position, for ``seek``: the number of bits that were read."""
        return self._state.place  # type: ignore[no-any-return]

    def seek(self, position: SupportsIndex) -> None:
        """Moves the decoder to a position that ``pos`` returned, of this decoder or of the encoder.

        Raises :class:`WrongLengthError` if the position is past the end of the data.
        """
        place = whole(position)

        def go(now: _Place) -> tuple[_Place, None]:
            if not 0 <= place <= now.bits.length:
                raise errors.no_such_position(now.bits.length, place, "bits")
            return _Place(now.bits, place), None

        self._changed(go)

    @overload
    def decode(self, codebook: Codebook, amt: None = None) -> int:
        ...

    @overload
    def decode(self, codebook: Codebook, amt: SupportsIndex) -> Answer:
        ...

    def decode(self, codebook: Codebook, amt: SupportsIndex | None = None) -> int | Answer:
        """Decodes the next symbol, or a list of the next ``amt`` symbols.

        Raises :class:`OutOfDataError` if the words end before all symbols are decoded, and :class:`InvalidDataError` if
        the next bits begin with 33 zeros, or with the Exp-Golomb codeword of 2^32 or more. After an error the decoder is
        unchanged.
        """
        codebook_wanted(codebook)
        if amt is None:
            return self.decode_symbol(codebook)
        count = count_of(amt)
        found: Answer = answered(self._changed(lambda state: _read_list(state, codebook, count)))
        return found

    def decode_symbol(self, codebook: Codebook) -> int:
        """Decodes the next symbol."""
        return self._changed(lambda state: _read(state, codebook))

    def _said(self, state: _Place) -> str:
        return f"at bit {state.place} of {state.bits.length}"

    def _plain(self, state: _Place) -> tuple[Any, ...]:
        return bytes(state.bits.clone().memory), state.bits.length, state.place

    def _unplain(self, plain: tuple[Any, ...]) -> _Place:
        return _Place(Bits(bytearray(plain[0]), plain[1]), plain[2])


def _read(state: _Place, codebook: Codebook) -> tuple[_Place, int]:
    """Decodes the next symbol of a queue. Returns the state after it, and the symbol."""
    bits, place = state

    def bit() -> int:
        nonlocal place
        if place >= bits.length:
            raise errors.OutOfDataError(errors.CODEWORD_ENDED)
        place += 1
        return bits.get(place - 1)

    symbol = codebook.read(bit)
    return _Place(bits, place), symbol


def _read_list(state: _Place, codebook: Codebook, count: int) -> tuple[_Place, Numbers]:
    """Decodes the next ``count`` symbols of a queue. Returns the state after them, and the symbols.

    For a long list the call uses a C function, if the words hold the whole list.
    """
    bits, place = state
    if count >= _LONG and count * codebook.shortest() <= bits.length - place:
        end = min(bits.length, place + count * codebook.longest())
        found = _by_library(codebook, bits.part(place, end), end - place, count, False)
        if found is not None:
            return _Place(bits, place + found[1]), found[0]
    symbols = room(SYMBOL, 0)
    for _ in range(count):
        state, symbol = _read(state, codebook)
        symbols.append(symbol)
    return state, symbols


def _by_library(codebook: Codebook, bits: int, length: int, count: int, stack: bool) -> tuple[Numbers, int] | None:
    """Decodes ``count`` symbols with a C function. Returns the symbols, and the number of bits of their codewords.

    Returns None if the bits don't hold all symbols.
    """
    try:
        words = words_with(bits | 1 << length, length + 1) if stack else words_with(bits, length)
        found = codebook.decoded(words, count, stack)
    except errors.Refusal:
        return None  # Decoding single symbols raises the exception.
    size = sum(codebook.codeword(it)[1] for it in found)
    if size > length:
        return None  # The C function read zeros after the last bit.
    symbols = room(SYMBOL, 0)
    symbols.fromlist(found.tolist())
    return symbols, size


class StackCoder(Coder):
    """A stack of codewords: the last one encoded is the first one decoded. Each symbol can have its own codebook.

    >>> from constriction.symbol import ExpGolomb
    >>> stack = StackCoder()
    >>> stack.encode_reverse([0, 5, 7], ExpGolomb())
    >>> stack.decode(ExpGolomb(), 3).tolist()
    [0, 5, 7]
    """

    def __init__(self, compressed: Compressed | None = None) -> None:
        """Creates an empty stack, or imports a stack from ``compressed``: words, or the pair of ``get_compressed``.

        The coder copies the words. Raises :class:`InvalidDataError` if the last word is 0, or if a pair's number isn't
        the stack's number of bits.
        """
        given, count = _parts_of(() if compressed is None else compressed)
        words = words_of(given)
        if len(words) and not words[-1]:
            raise errors.InvalidDataError(errors.NOT_ENOUGH_WORDS)
        bits = bits_of(words)
        # The highest bit 1 ends the stack.
        length = 32 * (len(words) - 1) + words[-1].bit_length() - 1 if len(words) else 0
        if count not in (None, length):
            raise errors.InvalidDataError(f"expected {length} bits, as the words have, got {count}")
        self._begin(Bits(bits.memory, length))

    def encode_reverse(self, symbols: Symbols, codebook: Codebook) -> None:
        """Encodes a symbol, or a list of symbols from the last to the first.

        Raises :class:`ImpossibleSymbolError` if a symbol has no codeword. After an error the stack is unchanged.
        """
        codebook_wanted(codebook)
        if is_one(symbols):
            return self.encode_symbol(symbols, codebook)  # type: ignore[arg-type]
        given = sequence_of(symbols)
        listed = codebook.symbols(given)

        def change(bits: Bits) -> tuple[Bits, None]:
            if len(listed) < _LONG:
                for symbol in reversed(listed):
                    bits = bits.put(*_turned(*codebook.codeword(symbol)))
                return bits, None
            words = StackCoder(codebook.encoded(listed, True))._state
            return bits.put(words.part(0, words.length), words.length), None

        _all_or_nothing(self, given, codebook, change)

    def encode_symbol(self, symbol: SupportsIndex, codebook: Codebook) -> None:
        """Encodes one symbol."""
        codeword = _turned(*_symbol_codeword(symbol, codebook))
        self._changed(lambda bits: (bits.put(*codeword), None))

    @overload
    def decode(self, codebook: Codebook, amt: None = None) -> int:
        ...

    @overload
    def decode(self, codebook: Codebook, amt: SupportsIndex) -> Answer:
        ...

    def decode(self, codebook: Codebook, amt: SupportsIndex | None = None) -> int | Answer:
        """Decodes the symbol on top of the stack, or a list of the ``amt`` symbols on top.

        Raises :class:`OutOfDataError` if the stack has too few bits, and :class:`InvalidDataError` if the bits on top
        begin with 33 zeros, or with the Exp-Golomb codeword of 2^32 or more. After an error the stack is unchanged.
        """
        codebook_wanted(codebook)
        if amt is None:
            return self.decode_symbol(codebook)
        count = count_of(amt)
        found: Answer = answered(self._changed(lambda bits: _take_list(bits, codebook, count)))
        return found

    def decode_symbol(self, codebook: Codebook) -> int:
        """Decodes the symbol on top of the stack."""
        return self._changed(lambda bits: _take(bits, codebook))

    def is_empty(self) -> bool:
        """Returns whether the stack is empty."""
        return not self._state.length

    def get_compressed(self) -> tuple[Answer, int]:
        """Returns the words, and the total number of bits of all codewords.

        In the words, a bit 1 follows the codewords, and zero bits fill the last word.
        """

        def export(bits: Bits) -> tuple[Numbers, int]:
            return words_with(bits.part(0, bits.length) | 1 << bits.length, bits.length + 1), bits.length

        words, count = self._asked(export)
        return answered(words), count

    def _said(self, state: Bits) -> str:
        return f"{state.length} bits"

    def _plain(self, state: Bits) -> tuple[Any, ...]:
        return bytes(state.clone().memory), state.length

    def _unplain(self, plain: tuple[Any, ...]) -> Bits:
        return Bits(bytearray(plain[0]), plain[1])


def _turned(bits: int, count: int) -> tuple[int, int]:
    """Returns the bits of a codeword in the reverse order, and their number."""
    return int(format(bits, f"0{count}b")[::-1], 2) if count else 0, count


def _take(bits: Bits, codebook: Codebook) -> tuple[Bits, int]:
    """Decodes the symbol on top of a stack. Returns the bits that are left, and the symbol."""
    place = bits.length

    def bit() -> int:
        nonlocal place
        if not place:
            raise errors.OutOfDataError(errors.CODEWORD_ENDED)
        place -= 1
        return bits.get(place)

    symbol = codebook.read(bit)
    return Bits(bits.memory, place), symbol


def _take_list(bits: Bits, codebook: Codebook, count: int) -> tuple[Bits, Numbers]:
    """Decodes the ``count`` symbols on top of a stack. Returns the bits that are left, and the symbols.

    For a long list the call uses a C function, if the stack holds the whole list.
    """
    if count >= _LONG and count * codebook.shortest() <= bits.length:
        start = max(0, bits.length - count * codebook.longest())
        found = _by_library(codebook, bits.part(start, bits.length), bits.length - start, count, True)
        if found is not None:
            return Bits(bits.memory, bits.length - found[1]), found[0]
    symbols = room(SYMBOL, 0)
    for _ in range(count):
        bits, symbol = _take(bits, codebook)
        symbols.append(symbol)
    return bits, symbols
