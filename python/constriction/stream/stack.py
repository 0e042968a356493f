"""The stack coder (ANS): the symbol that was encoded last is decoded first."""

from __future__ import annotations

from array import array
from ctypes import byref, c_size_t
from typing import Any, NamedTuple, SupportsIndex, TypeVar, Union, overload

from .. import errors
from .._buffers import Amount, Answer, List, Numbers, Parameter, Reals, Symbols, answered, copied_part, lent
from .._coder import Coder
from .._answers import AS_USUAL, Wanted
from .._coding import decoded, encoded
from .._numbers import whole
from .._sizes import LARGE, SMALL, Size
from .._row import lent_for_good, memory_of
from .._single import Lane, made
from .._words import Words, bytes_of, copied, packed, unpacked, words_from
from ._lanes import AnsCoders, SmallAnsCoders
from .model import Categorical, Model, QuantizedMixture, WeightTable

__all__ = ["AnsCoder", "AnsCoders", "SmallAnsCoder", "SmallAnsCoders"]

Self = TypeVar("Self", bound="AnsCoder")
#: The models whose parameters are rows.
RowModel = Union[Categorical, WeightTable, QuantizedMixture]


class _State(NamedTuple):
    """The words in use, the head above them, and the words ahead, to which ``seek`` goes forward.

    The first ``top`` words of the buffer are the words in use and then the words ahead. A decode leaves the words that
    it takes off as words ahead, until an encode writes a word.

    An encode may write over words ahead and then fail. So their copies are in ``saved`` before it begins: the index of
    the first of them in the buffer, and the words. What the buffer has in their place has no meaning.
    """

    words: Words
    head: int
    top: int
    saved: tuple[int, Any] | None = None


def _whole(state: _State) -> _State:
    """Returns an equal state, whose words ahead are all in the buffer."""
    if state.saved is None:
        return state
    start, ahead = state.saved
    memoryview(state.words.memory)[start : start + len(ahead)] = memoryview(ahead)
    return state._replace(saved=None)


def _writable(state: _State, count: int) -> _State:
    """Returns an equal state that doesn't depend on the buffer where an encode of ``count`` symbols writes words."""
    length, top = state.words.length, state.top
    if length == top:
        return state  # There are no words ahead.
    state = _whole(state)
    return state._replace(saved=(length, copied_part(state.words.memory, length, min(top, length + count))))


def _behind(before: _State, words: Words, length: int, head: int) -> _State:
    """Returns the state after a step. The step left ``length`` words in use in the buffer of ``words``, and ``head``.

    Only an encode that writes words gives up the words ahead.
    """
    if length > before.words.length:
        return _State(Words(words.memory, length), head, length)
    return _State(Words(words.memory, length), head, before.top, before.saved)


class _Lane(Lane):
    def __init__(self, size: Size) -> None:
        super().__init__(size, "ans_encode{}_reverse", "ans_decode{}")
        self._head, self._length, self._mask = array(size.code_of_states, (0,)), c_size_t(), size.total - 1

    def lead(self, *words: Any) -> tuple[Any, ...]:
        return memory_of(self._head), *lent_for_good(*words), byref(self._length)

    def load(self, state: Any, encodes: bool) -> Any:
        state = _State._make(state)
        if encodes:
            state = _writable(state, 1)
            words = state.words.reserve(1, state.top)
            if words is not state.words:
                state = state._replace(words=words)
        memory, length = state.words
        self.bind(memory)
        self._head[0], self._length.value = state.head, length
        self._encodes, self._decodes = encodes, True
        return state

    def loaded(self, before: Any) -> Any:
        words, _, top, saved = before
        length, old = self._length.value, words[1]
        if length != old:
            memory = words[0]
            words = made(Words, (memory, length))
            if length < old:
                self._encodes = False  # The word that was taken off is ahead, so ``load`` comes before the next encode.
            else:
                top, saved, self._encodes = length, None, length < len(memory)
        return words, self._head[0], top, saved

    def quantile(self, state: Any) -> int:
        return state[1] & self._mask  # type: ignore[no-any-return]


class AnsCoder(Coder):
    """A stack coder (ANS) with words of 32 bits. It decodes symbols in the reverse order of encoding.

    >>> from constriction.stream.model import QuantizedGaussian
    >>> coder, heights = AnsCoder(), QuantizedGaussian(120, 220, 172.5, 9.25)
    >>> coder.encode_reverse([181, 164, 170, 193], heights)
    >>> AnsCoder(coder.get_compressed()).decode(heights, amt=4).tolist()
    [181, 164, 170, 193]
    >>> coder.decode(heights)
    181
    """

    _size, _named = LARGE, _State._make

    def __init__(self, compressed: List | None = None, seal: bool = False) -> None:
        """Creates an empty coder, or imports a coder from ``compressed``: words that ``get_compressed`` returned.

        The coder copies the words. With ``seal`` the words may be any, for example for bits-back coding, and
        ``get_binary`` is the inverse.

        Raises :class:`InvalidDataError` if the last word is 0 and ``seal`` isn't set.
        """
        words, head = copied(() if compressed is None else compressed, self._size), self._size.head(0)
        if compressed is not None:
            length = c_size_t(0)
            name = "ans_from_binary" if seal else "ans_from_compressed"
            texts = {7: errors.ENDS_WITH_ZERO_WORD}
            self._size.call(name, lent(words.memory), words.length, byref(length), byref(head), texts=texts)
            words = Words(words.memory, length.value)
        self._begin(_State(words, head.value, words.length))

    def encode_reverse(self, symbols: Symbols, model: Model, *parameters: Parameter) -> None:
        """Encodes a symbol, or symbols from the last to the first: a list, or an array of any shape in C order.

        ``decode`` returns the symbols in the order of the list. If the model has missing parameters, pass a list of
        each after the model.

        Raises :class:`ImpossibleSymbolError` if the model has no entry for a symbol, and :class:`WrongWeightsError` if
        the model's weights are invalid. After an error the coder is unchanged.
        """
        lane = self._lane
        if (
            lane is not None
            and type(symbols) is int
            and isinstance(model, Model)
            and lane.encode(self, symbols, model, parameters)
        ):
            return
        if not self._encoded_alone(symbols, model, parameters):
            self._changed(
                lambda it: (encoded(it, self._size, symbols, model, parameters, self._encode, True, self._ready), None)
            )

    def _encode(self, kind: str, state: _State, count: int, arguments: tuple[Any, ...]) -> _State:
        words = state.words.reserve(count, state.top)  # A step writes at most one word.
        head, length, needed = self._size.head(state.head), c_size_t(words.length), c_size_t(0)
        lead = byref(head), *words.lent(), byref(length)
        self._size.call(f"ans_encode{kind}_reverse", *lead, *arguments, byref(needed))
        return _behind(state, words, length.value, head.value)

    def _ready(self, state: _State, count: int) -> _State:
        """Replaces the state by an equal one before an encode of ``count`` symbols writes over words ahead."""
        self._held = state = _writable(state, count)
        return state

    @overload
    def decode(self, model: Model) -> int:
        ...

    @overload
    def decode(self, model: Model, amt: SupportsIndex, *, dtype: Any = None, out: Any = None) -> Answer:
        ...

    @overload
    def decode(self, model: Model, *, amt: Amount, dtype: Any = None, out: Any = None) -> Answer:
        ...

    @overload
    def decode(self, model: Model, parameter: float, /, *parameters: float) -> int:  # type: ignore[misc]
        ...

    @overload
    def decode(self, model: RowModel, row: Reals, /, *rows: Reals) -> int:  # type: ignore[misc]
        ...

    @overload
    def decode(
        self, model: Model, parameter: Parameter, /, *parameters: Parameter, dtype: Any = None, out: Any = None
    ) -> Answer:
        ...

    def decode(self, model: Model, *amt_or_parameters: Any, amt: Any = None, dtype: Any = None, out: Any = None) -> Any:
        """Decodes one symbol, ``amt`` symbols, or one symbol for each set of parameters.

        ``amt`` is a number of symbols, or the shape of an array of them. Parameters may have any shape, and the answer
        has the shape to which they broadcast by numpy's rules. ``dtype`` is numpy's integer type of an array of symbols.
        Or ``out`` is a numpy array of this shape, which gets the symbols and is returned.

        An empty coder decodes to symbols too, so the caller has to know the number of encoded symbols.
        """
        if amt is None and dtype is None and out is None:
            lane = self._lane
            if lane is not None and not amt_or_parameters and isinstance(model, Model):
                symbol = lane.decode(self, model, ())
            else:
                symbol = self._decoded_alone(model, amt_or_parameters)
            if symbol is not None:
                return symbol
        wanted = AS_USUAL if dtype is None and out is None else Wanted(dtype, out)
        return self._changed(
            lambda it: decoded(it, self._size, model, amt_or_parameters, amt, wanted, self._decode, self._quantile)
        )

    def _decode(self, kind: str, state: _State, count: int, arguments: tuple[Any, ...]) -> _State:
        words, head, length = state.words, self._size.head(state.head), c_size_t(state.words.length)
        self._size.call(f"ans_decode{kind}", byref(head), *words.lent(), byref(length), *arguments)
        return _behind(state, words, length.value, head.value)

    def _quantile(self, state: _State) -> int:
        """Returns the quantile that selects the next symbol: a number below the sum of all weights."""
        return state.head & self._size.total - 1

    def _made_lane(self) -> Lane:
        self._lane = _Lane(self._size)
        return self._lane

    def get_compressed(self, unseal: bool = False) -> Answer:
        """Returns a copy of the words, followed by the words of the head. The coder is unchanged.

        With ``unseal`` the call does the same as ``get_binary``.
        """
        found: Answer = answered(self._exported("ans_into_binary" if unseal else "ans_into_compressed"))
        return found

    def to_bytes(self, unseal: bool = False) -> bytes:
        """Returns the words of ``get_compressed`` for a file: 4 bytes for each word, lowest first on every machine.

        A coder with words of 16 bits writes 2 bytes for each.
        """
        return bytes_of(self._exported("ans_into_binary" if unseal else "ans_into_compressed"))

    @classmethod
    def from_bytes(cls: type[Self], data: Any, seal: bool = False) -> Self:
        """Imports a coder from bytes that ``to_bytes`` returned, or from any words with ``seal``.

        Raises :class:`InvalidDataError` if these aren't whole words, and as the constructor does.
        """
        return cls(words_from(data, cls._size), seal)

    def get_binary(self) -> Answer:
        """Returns a copy of the words, followed by the words of the head below its leading 1.

        The constructor with ``seal`` imports these words. The coder is unchanged.

        Raises :class:`InvalidDataError` if the head is 0, or if the number of bits below its leading 1 isn't a multiple
        of 32 (of 16 for words of 16 bits).
        """
        found: Answer = answered(self._exported("ans_into_binary"))
        return found

    def _exported(self, name: str) -> Numbers:
        def export(state: _State) -> Numbers:
            words = (state.words.clone() if state.top > state.words.length else state.words).reserve(2)
            length, needed = c_size_t(words.length), c_size_t(0)
            texts = {7: errors.NO_WHOLE_WORDS}
            self._size.call(name, state.head, *words.lent(), byref(length), byref(needed), texts=texts)
            return Words(words.memory, length.value).numbers()

        return self._asked(export)

    def num_words(self) -> int:
        """Returns the number of words that ``get_compressed`` returns."""
        state: _State = self._state
        return state.words.length + (state.head.bit_length() + self._size.bits - 1) // self._size.bits

    def num_bits(self) -> int:
        """Returns the number of bits that ``get_compressed`` returns: 32 for each word, or 16 for words of 16 bits."""
        return self._size.bits * self.num_words()

    def num_valid_bits(self) -> int:
        """Returns the number of bits that carry information.

        These are the bits below the head's leading 1, and all bits of the other words.
        """
        state: _State = self._state
        return self._size.bits * state.words.length + max(state.head.bit_length() - 1, 0)

    def is_empty(self) -> bool:
        """Returns whether the coder has no words and its head is 0."""
        state: _State = self._state
        return not state.head and not state.words.length

    def pos(self) -> tuple[int, int]:
        """Returns the position, for ``seek``: the number of words below the head, and the head."""
        state: _State = self._state
        return state.words.length, state.head

    def seek(self, position: SupportsIndex, state: SupportsIndex) -> None:
        """Moves the coder to a position that ``pos`` returned.

        The coder can move back, and forward again until an encode writes a word. The call copies no words, so a coder
        can visit many positions of the same words in any order.

        Raises :class:`WrongLengthError` if the coder has no such position.
        """
        length, head = whole(position), whole(state)

        def go(now: _State) -> tuple[_State, None]:
            if not 0 <= length <= now.top:
                raise errors.no_such_position(now.top, length)
            if not 0 <= head <= self._size.greatest:
                raise errors.WrongLengthError(
                    f"expected a head between 0 and {self._size.greatest}, got {errors.shown(head)}"
                )
            return _State(Words(_whole(now).words.memory, length), head, now.top), None

        self._changed(go)

    def clear(self) -> None:
        """Removes all symbols."""
        self._changed(lambda state: (_State(Words(state.words.memory, 0), 0, 0), None))

    def _compared(self, state: _State) -> Any:
        return packed(state.words), state.head

    def _said(self, state: _State) -> str:
        return f"{state.words.length} words, and a head of {state.head.bit_length()} bits"

    def _plain(self, state: _State) -> tuple[Any, ...]:
        return packed(Words(_whole(state).words.memory, state.top)), state.head, state.words.length

    def _unplain(self, plain: tuple[Any, ...]) -> _State:
        kept = unpacked(plain[0], self._size)
        return _State(Words(kept.memory, plain[2]), plain[1], kept.length)


class SmallAnsCoder(AnsCoder):
    """A stack coder with words of 16 bits and a precision of 12 bits, and otherwise like :class:`AnsCoder`.

    A model has at most 2^12 symbols. The weights of a ``WeightTable`` add up to 2^12. The other models share 2^12 out,
    by the rules by which they share 2^24 out for an ``AnsCoder``.

    >>> from constriction.stream.model import QuantizedGaussian
    >>> coder, heights = SmallAnsCoder(), QuantizedGaussian(120, 220, 172.5, 9.25)
    >>> coder.encode_reverse([181, 164, 170, 193], heights)
    >>> len(coder.to_bytes())
    4
    >>> coder.decode(heights, amt=4).tolist()
    [181, 164, 170, 193]
    """

    _size = SMALL
