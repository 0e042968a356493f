"""Stores: chunks of symbols in the words of one range encoder. Each chunk can be decoded alone.

>>> from constriction.stream.model import Uniform
>>> store = Store.build([[1, 0, 3], [], [2]], Uniform(4))
>>> store[2].tolist(), len(store)
([2], 3)
>>> kept = store.words, store.index
>>> Store.from_parts(*kept, Uniform(4)).chunk(0).tolist()
[1, 0, 3]
"""

from __future__ import annotations

import sys
from array import array
from collections.abc import Iterable, Iterator, Sequence
from ctypes import byref
from operator import index as whole_index
from typing import Any, NamedTuple

from . import errors
from ._buffers import SYMBOL, WORD, List, Numbers, answered, lent, room
from ._answers import shifted
from ._library import RangeDecoderState
from ._coding import model_wanted
from ._numbers import list_wanted, sequence_of, whole
from ._shapes import flat
from ._sizes import LARGE
from .stream.model import Model
from .stream.queue import RangeEncoder

__all__ = ["MOST_SYMBOLS", "Entry", "Store"]

#: The greatest total number of symbols in the chunks of a store.
MOST_SYMBOLS = 1 << 20

_TOO_MANY_SYMBOLS = f"expected at most {MOST_SYMBOLS} symbols in all chunks, got more"
_INVALID_CHUNK = "expected words that encode the symbols of chunk {}, got others"

#: The number of words that a decoder reads before its first symbol.
_WORDS_OF_A_STATE = 2
_STATES = 1 << 64


class Entry(NamedTuple):
    """The entry of a chunk: the range encoder's position where the chunk begins, and the number of symbols."""

    position: int
    state: tuple[int, int]
    count: int  # type: ignore[assignment]


def _entry(given: Sequence[Any]) -> Entry:
    position, (lower, length), count = given
    return Entry(whole(position), (whole(lower), whole(length)), whole(count))


#: The formats of memory that holds bytes, or words in this machine's byte order.
_BYTES, _WORDS = frozenset(("B", "b", "c")), frozenset(("I", "L", "=I", "<I" if sys.byteorder == "little" else ">I"))


def _buffer_wanted(got: str) -> TypeError:
    return TypeError(
        "expected a buffer of unsigned 32-bit words in this machine's byte order, as array('I') or a numpy array of"
        f" uint32, or of their bytes, lowest first, got {got}"
    )


def _as_bytes(words: Any) -> memoryview:
    """Returns the buffer of words as bytes, without a copy."""
    try:
        view = memoryview(words)
    except TypeError:
        raise _buffer_wanted(type(words).__name__) from None
    if not view.c_contiguous:
        raise _buffer_wanted("numbers that aren't one after another")
    if view.ndim != 1 or view.format not in (_BYTES if view.itemsize == 1 else _WORDS if view.itemsize == 4 else ()):
        raise _buffer_wanted(f"numbers of the format {view.format!r}")
    return view.cast("B") if view.nbytes else memoryview(b"")


class Store:
    """Chunks of symbols that were encoded with one model.

    The words may be in any buffer: an ``array.array('I')``, a numpy array of ``uint32``, or bytes with the lowest byte
    of each word first, for example a file that ``mmap`` maps. Decoding a chunk copies at most one word for each symbol
    of the chunk, and two more, and reads no other words. The buffer must not change while the store is in use.
    """

    def __init__(self, words: Any, index: Iterable[Sequence[Any]], model: Model) -> None:
        """Creates a store from its parts. See :meth:`from_parts`."""
        if not isinstance(model, Model):
            model_wanted(model)
        if model.missing:
            raise TypeError(f"expected a model with all its parameters, got {model!r}")
        list_wanted(index, "entries")
        self._words, self._index, self._model = words, [_entry(it) for it in index], model
        size = _as_bytes(words).nbytes
        count = size // 4
        if size % 4:
            raise errors.WrongLengthError(f"expected words of 4 bytes, got {size} bytes")
        if sum(it.count for it in self._index) > MOST_SYMBOLS:
            raise errors.WrongLengthError(_TOO_MANY_SYMBOLS)
        for i, it in enumerate(self._index):
            if not (0 <= it.position <= count and 0 <= it.count):
                raise errors.WrongLengthError(
                    f"expected chunks of at least 0 symbols that begin at words 0 .. {count}, got chunk {i} of"
                    f" {errors.shown(it.count)} symbols that begins at word {errors.shown(it.position)}"
                )

    @classmethod
    def build(cls, chunks: Iterable[List], model: Model) -> Store:
        """Builds a store: encodes the chunks in order with one range encoder.

        A chunk is a list, or an array of any shape in C order, and decodes to a list.
        The seal of the words is self-delimiting, so other words may follow.

        Raises :class:`ImpossibleSymbolError` if the model has no entry for a symbol, and :class:`WrongLengthError` if
        the chunks have more than ``MOST_SYMBOLS`` symbols in total.
        """
        list_wanted(chunks, "chunks")
        encoder, index, left = RangeEncoder(), [], MOST_SYMBOLS
        for chunk in chunks:
            symbols = flat(sequence_of(chunk))
            left -= len(symbols)
            if left < 0:
                raise errors.WrongLengthError(_TOO_MANY_SYMBOLS)
            index.append(Entry(*encoder.pos(), len(symbols)))
            if len(symbols):
                encoder.encode(symbols, model)
        return cls(encoder.get_compressed(self_delimiting=True), index, model)

    @classmethod
    def from_parts(cls, words: Any, index: Iterable[Sequence[Any]], model: Model) -> Store:
        """Creates a store from its parts: ``words`` and ``index`` of a store. The words are not copied.

        Raises :class:`WrongLengthError` if an entry begins past the end of the words, or if the chunks have more than
        ``MOST_SYMBOLS`` symbols in total.
        """
        return cls(words, index, model)

    @property
    def words(self) -> Any:
        """The buffer of the words."""
        return self._words

    @property
    def index(self) -> list[Entry]:
        """A list of the entries of all chunks."""
        return list(self._index)

    def _words_from(self, place: int, count: int) -> array[Any]:
        """Returns a copy of ``count`` words that begin at word ``place``, or of fewer words if the buffer ends."""
        copy = room(WORD, 0)
        with _as_bytes(self._words) as all_bytes:
            copy.frombytes(all_bytes[4 * place : 4 * (place + count)])
            if sys.byteorder == "big" and memoryview(self._words).itemsize == 1:
                copy.byteswap()
        return copy

    def chunk(self, i: int) -> Any:
        """Decodes chunk number ``i``. The first chunk is number 0.

        Raises :class:`IndexError` if there is no such chunk, and :class:`InvalidDataError` if the words don't encode
        the chunk's symbols. A store that :meth:`build` returned never raises :class:`InvalidDataError`.
        """
        place = whole(i)
        if not 0 <= place < len(self._index):
            raise self._no_such_chunk(place)
        entry, invalid = self._index[place], _INVALID_CHUNK.format(place)
        if not all(0 <= it < _STATES for it in entry.state):
            raise errors.InvalidDataError(invalid)
        symbols = room(SYMBOL, entry.count)
        # Each symbol takes at most one word, so the decoder needs no other words.
        words = self._words_from(entry.position, entry.count + _WORDS_OF_A_STATE)
        weights, decoder, texts = self._model.table(), RangeDecoderState(), {7: invalid}
        LARGE.call("range_seek", byref(decoder), lent(words), len(words), 0, *entry.state, texts=texts)
        if len(symbols):
            LARGE.call(
                "range_decode", byref(decoder), lent(words), len(words), lent(weights), len(weights),
                lent(symbols), len(symbols), texts=texts,
            )  # fmt: skip
        return answered(shifted(symbols, self._model.first))

    def _no_such_chunk(self, place: int) -> IndexError:
        return IndexError(f"expected the number of one of {len(self._index)} chunks, got {errors.shown(place)}")

    def __len__(self) -> int:
        return len(self._index)

    def __getitem__(self, i: Any) -> Any:
        """Decodes one chunk, or the chunks of a slice. A negative number counts from the last chunk."""
        if isinstance(i, slice):
            return [self.chunk(k) for k in range(*i.indices(len(self)))]
        place = whole_index(i)
        if place < -len(self):
            raise self._no_such_chunk(place)
        return self.chunk(place + len(self) if place < 0 else place)

    def __iter__(self) -> Iterator[Any]:
        return (self.chunk(k) for k in range(len(self)))
