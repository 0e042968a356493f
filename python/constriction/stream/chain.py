"""The chain coder: decodes each symbol from 24 bits of the data, whatever the models of the other symbols are."""

from __future__ import annotations

from ctypes import byref, c_size_t
from typing import Any, NamedTuple, SupportsIndex, Union, overload

from .. import errors
from .._buffers import Amount, Answer, List, Numbers, Parameter, Reals, Symbols, answered, lent
from .._coder import Coder
from .._answers import AS_USUAL, Wanted
from .._coding import decoded, encoded
from .._sizes import LARGE, SMALL, Size
from .._row import lent_for_good
from .._single import Lane
from .._words import Words, copied, packed, unpacked
from .model import Categorical, Model, QuantizedMixture, WeightTable

__all__ = ["ChainCoder", "SmallChainCoder"]

#: The models whose parameters are rows.
RowModel = Union[Categorical, WeightTable, QuantizedMixture]


class _State(NamedTuple):
    """Two stacks of words, and the two heads: the remainders head and the compressed head."""

    compressed: Words
    remainders: Words
    heads: tuple[int, int]


class _Call:
    """The arguments of a C call that moves words between the two stacks, and the state after the call."""

    def __init__(self, size: Size, compressed: Words, remainders: Words, heads: tuple[int, int]) -> None:
        self._compressed, self._remainders, self._heads = compressed, remainders, size.heads(*heads)
        self._lengths = c_size_t(compressed.length), c_size_t(remainders.length)
        self.needed = c_size_t(0)

    def arguments(self) -> tuple[Any, ...]:
        below, above = self._lengths
        return byref(self._heads), *self._compressed.lent(), byref(below), *self._remainders.lent(), byref(above)

    def state(self) -> _State:
        below, above = (it.value for it in self._lengths)
        heads = self._heads.remainders, self._heads.compressed
        return _State(Words(self._compressed.memory, below), Words(self._remainders.memory, above), heads)


def _next_bits(words: Words, bits: int, size: Size) -> int | None:
    """Returns a number whose lowest bits select the next symbol: bits left over in the compressed head, or the next word.

    Returns None if a word is needed and none is left.
    """
    if bits < size.total:
        return int(words.memory[words.length - 1]) if words.length else None
    return bits


def _room(compressed: Words, remainders: Words) -> int:
    """Returns the number of words for which each of the two stacks has room."""
    return min(len(compressed.memory) - compressed.length, len(remainders.memory) - remainders.length)


class _Lane(Lane):
    def __init__(self, size: Size) -> None:
        super().__init__(size, "chain_encode{}_reverse", "chain_decode{}", (byref(c_size_t()),))
        self._heads, self._lengths = size.heads(), (c_size_t(), c_size_t())

    def lead(self, *words: Any) -> tuple[Any, ...]:
        below, above = ((*lent_for_good(it), byref(length)) for it, length in zip(words, self._lengths))
        return byref(self._heads), *below, *above

    def load(self, state: Any, encodes: bool) -> _State:
        """Writes a state to this memory, and returns the state.

        Each stack gets room for one more word, because a decode or an encode moves at most one word.
        """
        compressed, remainders, heads = state[0].reserve(1), state[1].reserve(1), state[2]
        self.bind(compressed.memory, remainders.memory)
        self._lengths[0].value, self._lengths[1].value = compressed.length, remainders.length
        self._heads.remainders, self._heads.compressed = heads
        self._encodes = self._decodes = _room(compressed, remainders)
        return _State(compressed, remainders, heads)

    def loaded(self, before: Any) -> Any:
        compressed, remainders, _ = before
        below, above = self._lengths[0].value, self._lengths[1].value
        if below != compressed[1] or above != remainders[1]:
            compressed, remainders = Words(compressed[0], below), Words(remainders[0], above)
            self._encodes = self._decodes = _room(compressed, remainders)
        return compressed, remainders, (self._heads.remainders, self._heads.compressed)

    def quantile(self, state: Any) -> int:
        bits = _next_bits(state[0], state[2][1], self.size)
        return self.size.total if bits is None else bits & self.size.total - 1


class ChainCoder(Coder):
    """A chain coder with words of 32 bits: two stacks of words, ``compressed`` and ``remainders``.

    A decode takes words off ``compressed``, and puts the part of each quantile that the symbol doesn't determine on
    ``remainders``. An encode is the inverse.

    >>> from constriction.stream.model import Uniform
    >>> coder = ChainCoder([0x11223344, 0x100])
    >>> coder.decode(Uniform(2))
    0
    >>> coder.encode_reverse(0, Uniform(2))
    >>> coder.get_data()[1].tolist() == [0x11223344, 0x100]
    True
    """

    _size, _named = LARGE, _State._make

    def __init__(self, data: List, is_remainders: bool = False, seal: bool = False) -> None:
        """Imports a coder from ``data``, a list of words. The coder copies the words.

        - By default the words are compressed words, and the last word must not be 0.
        - With ``seal`` the words may be any, and ``get_data(unseal=True)`` is the inverse.
        - With ``is_remainders`` the words are the second list that ``get_remainders`` returned, or both lists,
          concatenated.

        Raises :class:`InvalidDataError` if there are too few words, or if they end with a zero word.
        """
        if is_remainders and seal:
            raise ValueError("expected is_remainders or seal, got both")
        words, length, heads = copied(data, self._size), c_size_t(0), self._size.heads()
        name = "chain_from_remainders" if is_remainders else "chain_from_binary" if seal else "chain_from_compressed"
        texts = {7: errors.NOT_ENOUGH_WORDS}
        self._size.call(name, lent(words.memory), words.length, byref(length), byref(heads), texts=texts)
        words, numbers = Words(words.memory, length.value), (heads.remainders, heads.compressed)
        none = copied((), self._size)
        self._begin(_State(none, words, numbers) if is_remainders else _State(words, none, numbers))

    @overload
    def decode(self, model: Model) -> int:
        ...

    @overload
    def decode(self, model: Model, amt: SupportsIndex, *, dtype: Any = None, out: Any = None) -> Answer:
        ...

    @overload
    def decode(self, model: Model, *, amt: Amount, dtype: Any = None, out: Any = None) -> Answer:
        ...

    @overload
    def decode(self, model: Model, parameter: float, /, *parameters: float) -> int:  # type: ignore[misc]
        ...

    @overload
    def decode(self, model: RowModel, row: Reals, /, *rows: Reals) -> int:  # type: ignore[misc]
        ...

    @overload
    def decode(
        self, model: Model, parameter: Parameter, /, *parameters: Parameter, dtype: Any = None, out: Any = None
    ) -> Answer:
        ...

    def decode(self, model: Model, *amt_or_parameters: Any, amt: Any = None, dtype: Any = None, out: Any = None) -> Any:
        """Decodes one symbol, ``amt`` symbols, or one symbol for each set of parameters.

        ``amt`` is a number of symbols, or the shape of an array of them. Parameters may have any shape, and the answer
        has the shape to which they broadcast by numpy's rules. ``dtype`` is numpy's integer type of an array of symbols.
        Or ``out`` is a numpy array of this shape, which gets the symbols and is returned.

        Raises :class:`OutOfDataError` if the coder needs another compressed word and none is left. After an error the
        coder is unchanged.
        """
        if amt is None and dtype is None and out is None:
            lane = self._lane
            if lane is not None and not amt_or_parameters and isinstance(model, Model):
                symbol = lane.decode(self, model, ())
            else:
                symbol = self._decoded_alone(model, amt_or_parameters)
            if symbol is not None:
                return symbol
        wanted = AS_USUAL if dtype is None and out is None else Wanted(dtype, out)
        return self._changed(
            lambda it: decoded(
                it, self._size, model, amt_or_parameters, amt, wanted, self._decode, self._quantile, self._most
            )
        )

    def _decode(self, kind: str, state: _State, count: int, arguments: tuple[Any, ...]) -> _State:
        it = _Call(self._size, state.compressed, state.remainders.reserve(count), state.heads)
        self._size.call(f"chain_decode{kind}", *it.arguments(), *arguments, byref(it.needed))
        return it.state()

    def _quantile(self, state: _State) -> int:
        """Returns the quantile that selects the next symbol.

        Raises OutOfDataError if a word is needed and none is left.
        """
        bits = _next_bits(state.compressed, state.heads[1], self._size)
        if bits is None:
            raise errors.OutOfDataError(errors.OUT_OF_COMPRESSED_DATA)
        return bits & self._size.total - 1

    def _most(self, state: _State) -> int:
        """Returns the number of symbols that the compressed words suffice for. Each takes as many bits as the precision."""
        return (self._size.bits * state.compressed.length + state.heads[1].bit_length() - 1) // self._size.precision

    def _made_lane(self) -> Lane:
        self._lane = _Lane(self._size)
        return self._lane

    def encode_reverse(self, symbols: Symbols, model: Model, *parameters: Parameter) -> None:
        """Encodes a symbol, or a list of symbols from the last to the first. An encode is the inverse of ``decode``.

        If the model has missing parameters, pass a list of each after the model.

        Raises :class:`ImpossibleSymbolError` if the model has no entry for a symbol, :class:`WrongWeightsError` if the
        model's weights are invalid, and :class:`OutOfDataError` if the coder needs another word of remainders and none
        is left. After an error the coder is unchanged.
        """
        lane = self._lane
        if (
            lane is not None
            and type(symbols) is int
            and isinstance(model, Model)
            and lane.encode(self, symbols, model, parameters)
        ):
            return
        if not self._encoded_alone(symbols, model, parameters):
            self._changed(lambda it: (encoded(it, self._size, symbols, model, parameters, self._encode, True), None))

    def _encode(self, kind: str, state: _State, count: int, arguments: tuple[Any, ...]) -> _State:
        # A step moves at most one word.
        it = _Call(self._size, state.compressed.reserve(count), state.remainders, state.heads)
        texts = {8: errors.OUT_OF_REMAINDERS}
        self._size.call(f"chain_encode{kind}_reverse", *it.arguments(), *arguments, byref(it.needed), texts=texts)
        return it.state()

    def get_data(self, unseal: bool = False) -> tuple[Answer, Answer]:
        """Returns two lists: the remainders that are left, and the compressed words with the remainders head.

        Once all decoded symbols are encoded again, the two lists, concatenated, are the words that the coder was
        imported from. With ``unseal`` they are words for ``ChainCoder(words, seal=True)``. The coder is unchanged.

        Raises :class:`InvalidDataError` if the coder doesn't hold a whole number of words.
        """
        name = "chain_into_binary" if unseal else "chain_into_compressed"

        def ask(state: _State) -> tuple[Numbers, Numbers]:
            return state.remainders.numbers(), self._export(name, state.compressed.reserve(2), state.heads)

        left, data = self._asked(ask)
        return answered(left), answered(data)

    def get_remainders(self) -> tuple[Answer, Answer]:
        """Returns two lists: the compressed words that are left, and the remainders with both heads.

        ``ChainCoder(data, is_remainders=True)`` imports the second list, or both lists, concatenated. The coder is
        unchanged.
        """

        def ask(state: _State) -> tuple[Numbers, Numbers]:
            words = state.remainders.reserve(3)
            return state.compressed.numbers(), self._export("chain_into_remainders", words, state.heads)

        left, remainders = self._asked(ask)
        return answered(left), answered(remainders)

    def _said(self, state: _State) -> str:
        return f"{state.compressed.length} words, and {state.remainders.length} of remainders"

    def _plain(self, state: _State) -> tuple[Any, ...]:
        return packed(state.compressed), packed(state.remainders), state.heads

    def _unplain(self, plain: tuple[Any, ...]) -> _State:
        return _State(unpacked(plain[0], self._size), unpacked(plain[1], self._size), plain[2])

    def _export(self, name: str, words: Words, heads: tuple[int, int]) -> Numbers:
        """Returns a copy of the words, followed by the words of the heads. The state is unchanged."""
        length, needed = c_size_t(words.length), c_size_t(0)
        texts = {7: errors.NO_WHOLE_WORDS}
        self._size.call(name, byref(self._size.heads(*heads)), *words.lent(), byref(length), byref(needed), texts=texts)
        return Words(words.memory, length.value).numbers()


class SmallChainCoder(ChainCoder):
    """A chain coder with words of 16 bits and a precision of 12 bits, and otherwise like :class:`ChainCoder`.

    Models are those of ``stream.stack.SmallAnsCoder``.

    >>> from constriction.stream.model import Uniform
    >>> coder = SmallChainCoder([0x1122, 0x3344, 0x100])
    >>> symbols = coder.decode(Uniform(9), 2)
    >>> coder.encode_reverse(symbols, Uniform(9))
    >>> coder.get_data()[1].tolist() == [0x1122, 0x3344, 0x100]
    True
    """

    _size = SMALL
