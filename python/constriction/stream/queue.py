"""The range coder: the symbol that was encoded first is decoded first."""

from __future__ import annotations

from array import array
from ctypes import byref, c_size_t, c_uint32
from typing import Any, NamedTuple, SupportsIndex, TypeVar, Union, overload

from .. import errors
from .._buffers import Amount, Answer, List, Numbers, Parameter, Reals, Symbols, answered, lent
from .._coder import Coder
from .._answers import AS_USUAL, Wanted
from .._coding import decoded, encoded
from .._numbers import whole
from .._sizes import LARGE, SMALL, Size
from .._row import count_as_argument, lent_for_good
from .._single import Lane, made
from .._words import Words, bytes_of, copied, packed, unpacked, words_from
from .model import Categorical, Model, QuantizedMixture, WeightTable

__all__ = ["RangeDecoder", "RangeEncoder", "SmallRangeDecoder", "SmallRangeEncoder"]

Self = TypeVar("Self", bound="RangeDecoder")
#: The models whose parameters are rows.
RowModel = Union[Categorical, WeightTable, QuantizedMixture]


class _Writing(NamedTuple):
    """The words that an encoder wrote, and the encoder's numbers."""

    words: Words
    numbers: tuple[int, int, int, int]

    @property
    def held(self) -> int:
        return self.numbers[2]


def _numbers(it: Any) -> tuple[int, int, int, int]:
    """Returns the numbers of an encoder from its struct."""
    return it.lower, it.range, it.held, it.first


class _Reading(NamedTuple):
    """The words that a decoder reads, and the decoder's numbers. No call changes the words."""

    words: Words
    numbers: tuple[int, int, int, int]

    def lent(self) -> tuple[Any, int]:
        return lent(self.words.memory), self.words.length


def _reading(words: Words, it: Any) -> _Reading:
    return _Reading(words, (it.lower, it.range, it.point, it.pos))


class _WritingLane(Lane):
    def __init__(self, size: Size) -> None:
        super().__init__(size, "range_encode{}", "")
        self._state, self._length = size.encoder(), c_size_t()

    def lead(self, *words: Any) -> tuple[Any, ...]:
        return byref(self._state), *lent_for_good(*words), byref(self._length)

    def load(self, state: Any, encodes: bool) -> _Writing:
        (words, numbers), it = state, self._state
        words = words.reserve(numbers[2] + 1)
        self.bind(words.memory)
        it.lower, it.range, it.held, it.first = numbers
        self._length.value, self._encodes = words.length, len(words.memory) - words.length - numbers[2]
        return _Writing(words, numbers)

    def loaded(self, before: Any) -> Any:
        words, length, it = before[0], self._length.value, self._state
        numbers = it.lower, it.range, it.held, it.first
        if length != words[1] or numbers[2] != before[1][2]:
            self._encodes = len(words[0]) - length - numbers[2]
            words = made(Words, (words[0], length))
        return words, numbers


class _ReadingLane(Lane):
    def __init__(self, size: Size) -> None:
        super().__init__(size, "", "range_decode{}")
        self._state, self._all_bits, self._precision = size.decoder(), size.greatest, size.precision

    def lead(self, *words: Any) -> tuple[Any, ...]:
        memory, length = words
        return byref(self._state), lent_for_good(memory)[0], count_as_argument(length)

    def load(self, state: Any, encodes: bool) -> Any:
        words, numbers = state
        self.bind(*words)
        it = self._state
        it.lower, it.range, it.point, it.pos = numbers
        self._decodes = True  # A decoder writes no words.
        return state

    def loaded(self, before: Any) -> Any:
        it = self._state
        return before[0], (it.lower, it.range, it.point, it.pos)

    def quantile(self, state: Any) -> int:
        lower, length, point, _ = state[1]
        return ((point - lower) & self._all_bits) // (length >> self._precision)  # type: ignore[no-any-return]


class RangeEncoder(Coder):
    """A range encoder with words of 32 bits. A decoder returns the symbols in the order of encoding.

    >>> from constriction.stream.model import QuantizedGaussian
    >>> encoder, heights = RangeEncoder(), QuantizedGaussian(120, 220, 172.5, 9.25)
    >>> encoder.encode([181, 164, 170, 193], heights)
    >>> decoder = RangeDecoder(encoder.get_compressed())
    >>> decoder.decode(heights), decoder.decode(heights, amt=3).tolist()
    (181, [164, 170, 193])
    """

    _size, _named = LARGE, _Writing._make

    def __init__(self) -> None:
        """Creates an encoder that has encoded no symbols."""
        self._begin(_Writing(copied((), self._size), self._new_numbers()))

    def _new_numbers(self) -> tuple[int, int, int, int]:
        it = self._size.encoder()
        self._size.call("range_encoder", byref(it))
        return _numbers(it)

    def encode(self, symbols: Symbols, model: Model, *parameters: Parameter) -> None:
        """Encodes a symbol, or a list of symbols in order.

        If the model has missing parameters, pass a list of each after the model.

        Raises :class:`ImpossibleSymbolError` if the model has no entry for a symbol, and :class:`WrongWeightsError` if
        the model's weights are invalid. After an error the encoder is unchanged.
        """
        lane = self._lane
        if (
            lane is not None
            and type(symbols) is int
            and isinstance(model, Model)
            and lane.encode(self, symbols, model, parameters)
        ):
            return
        if not self._encoded_alone(symbols, model, parameters):
            self._changed(lambda it: (encoded(it, self._size, symbols, model, parameters, self._encode, False), None))

    def _encode(self, kind: str, state: _Writing, count: int, arguments: tuple[Any, ...]) -> _Writing:
        words = state.words.reserve(state.held + count)  # A step shifts out at most one word.
        it, length, needed = self._size.encoder(*state.numbers), c_size_t(words.length), c_size_t(0)
        self._size.call(f"range_encode{kind}", byref(it), *words.lent(), byref(length), *arguments, byref(needed))
        return _Writing(Words(words.memory, length.value), _numbers(it))

    def _made_lane(self) -> Lane:
        self._lane = _WritingLane(self._size)
        return self._lane

    def _sealed(self, state: _Writing, self_delimiting: bool) -> Words:
        """Returns all words of the encoder, followed by the seal. The state is unchanged."""
        words = state.words.reserve(state.held + 2)
        it, length, needed = self._size.encoder(*state.numbers), c_size_t(words.length), c_size_t(0)
        name = "range_into_self_delimited" if self_delimiting else "range_into_compressed"
        self._size.call(name, byref(it), *words.lent(), byref(length), byref(needed))
        return Words(words.memory, length.value)

    def get_compressed(self, self_delimiting: bool = False) -> Answer:
        """Returns a copy of the words, followed by the seal. The encoder is unchanged.

        With ``self_delimiting`` other words may follow: a decoder that begins at the first word decodes the symbols
        even if other words follow the seal.
        """
        found: Answer = answered(self._compressed(self_delimiting))
        return found

    def to_bytes(self, self_delimiting: bool = False) -> bytes:
        """Returns the words of ``get_compressed`` for a file: 4 bytes for each word, lowest first on every machine.

        A coder with words of 16 bits writes 2 bytes for each.
        """
        return bytes_of(self._compressed(self_delimiting))

    def _compressed(self, self_delimiting: bool = False) -> Numbers:
        return self._asked(lambda state: self._sealed(state, self_delimiting).numbers())

    def get_decoder(self) -> RangeDecoder:
        """Returns a decoder of the symbols that were encoded so far."""
        return (RangeDecoder if self._size is LARGE else SmallRangeDecoder)(self._compressed())

    def num_words(self) -> int:
        """Returns the number of words that ``get_compressed`` returns."""
        return self._asked(lambda state: self._sealed(state, False).length)

    def num_bits(self) -> int:
        """Returns the number of bits that ``get_compressed`` returns: 32 for each word, or 16 for words of 16 bits."""
        return self._size.bits * self.num_words()

    def is_empty(self) -> bool:
        """Returns whether no symbol was encoded."""
        state: _Writing = self._state
        return state.numbers[1] == self._size.greatest and not state.words.length

    def pos(self) -> tuple[int, tuple[int, int]]:
        """Returns the position, for a decoder's ``seek``.

        The position is the number of words that the encoder wrote or holds back, and the lower end and length of its
        interval.
        """
        state: _Writing = self._state
        return state.words.length + state.held, state.numbers[:2]

    def clear(self) -> None:
        """Removes all symbols."""
        self._changed(lambda state: (_Writing(Words(state.words.memory, 0), self._new_numbers()), None))

    def _said(self, state: _Writing) -> str:
        return f"{state.words.length} words, and {state.held} held back"

    def _plain(self, state: _Writing) -> tuple[Any, ...]:
        return packed(state.words), state.numbers

    def _unplain(self, plain: tuple[Any, ...]) -> _Writing:
        return _Writing(unpacked(plain[0], self._size), plain[1])


class RangeDecoder(Coder):
    """A range decoder with words of 32 bits. See :class:`RangeEncoder` for another example.

    >>> from constriction.stream.model import Uniform
    >>> RangeDecoder([2**31]).decode(Uniform(2))
    1
    """

    _size, _named = LARGE, _Reading._make

    def __init__(self, compressed: List) -> None:
        """Creates a decoder at the beginning of ``compressed``. The decoder copies the words."""
        words, it = copied(compressed, self._size), self._size.decoder()
        self._size.call("range_from_compressed", lent(words.memory), words.length, byref(it))
        self._begin(_reading(words, it))

    @classmethod
    def from_bytes(cls: type[Self], data: Any) -> Self:
        """Creates a decoder of bytes that the encoder's ``to_bytes`` returned.

        Raises :class:`InvalidDataError` if these aren't whole words.
        """
        return cls(words_from(data, cls._size))

    @overload
    def decode(self, model: Model) -> int:
        ...

    @overload
    def decode(self, model: Model, amt: SupportsIndex, *, dtype: Any = None, out: Any = None) -> Answer:
        ...

    @overload
    def decode(self, model: Model, *, amt: Amount, dtype: Any = None, out: Any = None) -> Answer:
        ...

    @overload
    def decode(self, model: Model, parameter: float, /, *parameters: float) -> int:  # type: ignore[misc]
        ...

    @overload
    def decode(self, model: RowModel, row: Reals, /, *rows: Reals) -> int:  # type: ignore[misc]
        ...

    @overload
    def decode(
        self, model: Model, parameter: Parameter, /, *parameters: Parameter, dtype: Any = None, out: Any = None
    ) -> Answer:
        ...

    def decode(self, model: Model, *amt_or_parameters: Any, amt: Any = None, dtype: Any = None, out: Any = None) -> Any:
        """Decodes one symbol, ``amt`` symbols, or one symbol for each set of parameters.

        ``amt`` is a number of symbols, or the shape of an array of them. Parameters may have any shape, and the answer
        has the shape to which they broadcast by numpy's rules. ``dtype`` is numpy's integer type of an array of symbols.
        Or ``out`` is a numpy array of this shape, which gets the symbols and is returned.

        Raises :class:`InvalidDataError` if the words don't encode such symbols with the model. After an error the
        decoder is unchanged.
        """
        if amt is None and dtype is None and out is None:
            lane = self._lane
            if lane is not None and not amt_or_parameters and isinstance(model, Model):
                symbol = lane.decode(self, model, ())
            else:
                symbol = self._decoded_alone(model, amt_or_parameters)
            if symbol is not None:
                return symbol
        wanted = AS_USUAL if dtype is None and out is None else Wanted(dtype, out)
        return self._changed(
            lambda it: decoded(it, self._size, model, amt_or_parameters, amt, wanted, self._decode, self._quantile)
        )

    def _decode(self, kind: str, state: _Reading, count: int, arguments: tuple[Any, ...]) -> _Reading:
        it = self._size.decoder(*state.numbers)
        self._size.call(f"range_decode{kind}", byref(it), *state.lent(), *arguments)
        return _reading(state.words, it)

    def _quantile(self, state: _Reading) -> int:
        """Returns the quantile that selects the next symbol. Raises InvalidDataError if no encoder wrote the words."""
        lower, length, point, _ = state.numbers
        quantile = ((point - lower) & self._size.greatest) // (length >> self._size.precision)
        if quantile >> self._size.precision:
            raise errors.InvalidDataError(errors.INVALID_FOR_MODEL)
        return quantile

    def _made_lane(self) -> Lane:
        self._lane = _ReadingLane(self._size)
        return self._lane

    def seek(self, position: int, state: tuple[int, int]) -> None:
        """Moves the decoder to a position that the encoder's ``pos`` returned.

        Raises :class:`WrongLengthError` if ``position`` is past the end of the words, and :class:`InvalidDataError` if
        no encoder has the interval ``state``.
        """
        place, (lower, length) = whole(position), map(whole, state)

        def go(now: _Reading) -> tuple[_Reading, None]:
            if not 0 <= place <= now.words.length:
                raise errors.no_such_position(now.words.length, place)
            greatest = self._size.greatest
            if not (0 <= lower <= greatest and 0 < length >> self._size.bits and length <= greatest):
                raise errors.InvalidDataError(
                    f"expected an encoder's interval, got ({errors.shown(lower)}, {errors.shown(length)})"
                )
            it = self._size.decoder(*now.numbers)
            self._size.call("range_seek", byref(it), *now.lent(), place, lower, length)
            return _reading(now.words, it), None

        self._changed(go)

    def maybe_exhausted(self) -> bool:
        """Returns ``False`` if symbols are certainly left, and ``True`` if the decoder may have decoded all symbols."""
        state: _Reading = self._state
        maybe = c_uint32(0)
        self._size.call("range_maybe_exhausted", byref(self._size.decoder(*state.numbers)), *state.lent(), byref(maybe))
        return bool(maybe.value)

    def _said(self, state: _Reading) -> str:
        return f"at word {state.numbers[3]} of {state.words.length}"

    def _plain(self, state: _Reading) -> tuple[Any, ...]:
        return packed(state.words), state.numbers

    def _unplain(self, plain: tuple[Any, ...]) -> _Reading:
        return _Reading(unpacked(plain[0], self._size), plain[1])


class SmallRangeEncoder(RangeEncoder):
    """A range encoder with words of 16 bits and a precision of 12 bits, and otherwise like :class:`RangeEncoder`.

    Models are those of ``stream.stack.SmallAnsCoder``.

    >>> from constriction.stream.model import Categorical
    >>> encoder, model = SmallRangeEncoder(), Categorical([1, 2, 1])
    >>> encoder.encode([1, 0, 2, 1], model)
    >>> SmallRangeDecoder(encoder.get_compressed()).decode(model, 4).tolist()
    [1, 0, 2, 1]
    """

    _size = SMALL


class SmallRangeDecoder(RangeDecoder):
    """A range decoder with words of 16 bits and a precision of 12 bits. See :class:`SmallRangeEncoder`.

    >>> from constriction.stream.model import Uniform
    >>> SmallRangeDecoder([2**15]).decode(Uniform(2))
    1
    """

    _size = SMALL
