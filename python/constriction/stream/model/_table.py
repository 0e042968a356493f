"""Models with rows of weights: ``WeightTable`` takes the weights, and ``Categorical`` takes probabilities."""

from __future__ import annotations

from array import array
from collections.abc import Callable, Iterable, Iterator, Sequence
from operator import index
from typing import Any

from ... import _buffers
from ..._buffers import NUMBER, List, Reals, room
from ..._numbers import (
    as_numpy,
    doubles,
    floats_of,
    is_one,
    is_row,
    plain_of,
    rows_of,
    sequence_of,
    table_of,
    wholes_of,
    words_of,
)

from ..._quick import quick_counts_of, quick_counts_of_rows, quick_counts_of_wholes, quick_weights
from ..._row import MOST_FLOATS
from ..._units import counts_of_wholes, wrong_probabilities
from ..._sizes import LARGE, SMALL, Size
from ...errors import Refusal, WrongWeightsError, wrong_weights
from ._base import COUNTS, FLOATS, QUICK, ROW, SHARED, Model, lists_named, sized
from ._indexed import Indexed, explained, indexes_of, is_matrix, joined, table_alone

__all__ = ["ROWS_AT_A_TIME", "Categorical", "Rows", "WeightTable"]

_INT, _FLOAT = frozenset((int,)), frozenset((float,))
#: The formats of memory that holds whole numbers.
_WHOLE_FORMATS = frozenset("bBhHiIlLqQ")
#: The greatest number of weights in the rows that one call gets, if a row isn't longer.
ROWS_AT_A_TIME = 1 << 16


class Rows(Model):
    """Symbols 0, 1, .. with a row of weights. The row belongs to the model, or comes with each symbol.

    Or the model has several rows, and the index of its row comes with each symbol.
    """

    has_rows, core = True, 1
    #: The width of the model's rows if it has several, one after another in ``_fixed``. Otherwise None.
    _width: int | None = None
    #: The form of the model of a single symbol with a row of its own.
    _form = ROW

    def _compared(self) -> dict[str, Any]:
        return self.__getstate__()

    def _said(self) -> str:
        """Returns the weights of the symbols as text."""
        if self._width is not None:
            return f"<{len(self._every()) // self._width} rows of {self._width} weights>"
        if self.missing:
            return ""
        table = self.table()
        return str(table.tolist()) if len(table) <= 8 else f"<{len(table)} weights>"

    def _row(self, numbers: Any) -> array[int]:
        """Returns the weights that a list of parameters stands for."""
        raise NotImplementedError

    def _hold(self, rows: list[array[int]]) -> array[int]:
        """Makes this a model of several rows, and returns the rows one after another."""
        every, self._width = joined(rows)
        self._count, self.missing = self._width, ("indexes",)
        self.has_rows, self.core, self.has_wholes = False, 0, True
        return every

    def _every(self) -> array[int]:
        """Returns the weights of all rows of the model, one row after another."""
        if self._fixed is None:
            self._fixed = self._weights(())
        return self._fixed

    def table(self) -> array[int]:
        """Returns the weights of a model that has one row. No caller writes to them."""
        if self._width is not None:
            raise TypeError(f"expected {lists_named(self.missing)}, got none")
        return super().table()

    def located(self, given: Sequence[Any]) -> Any:
        """Returns the model's rows and the indexes as arguments for C functions. Returns None for other models."""
        if self._width is None:
            return None
        self._known(given)
        return Indexed(self._every(), self._width, indexes_of(given[0]))

    def explained(self, refused: Refusal, given: Sequence[Any]) -> Refusal:
        """Returns the exception with a text that names the row with a wrong sum, or the index past all rows."""
        if self._width is None or not given:
            return refused
        return explained(refused, self._every(), self._width, self.words.total, given[0])

    def _alone_at(self, given: tuple[Any, ...], width: int) -> tuple[int, Any, Any] | None:
        """Does the same as ``alone_by`` for a model of several rows, which all have to have the right sum."""
        every = self._every()
        if not self._uses:
            total = self.words.total
            if any(sum(every[start : start + width]) != total for start in range(0, len(every), width)):
                return None
            self._uses = 1
        row = table_alone(every, width, given[0]) if len(given) == 1 else None
        return None if row is None else (ROW, row, None)

    def alone_by(self, given: tuple[Any, ...]) -> tuple[int, Any, Any] | None:
        if self._width is not None:
            return self._alone_at(given, self._width)
        if len(given) != 1 or not self.missing or not is_row(given[0]):
            return None
        row = self._row(given[0])
        return (self._form, row, None) if len(row) else None

    def _nothing(self) -> array[int]:
        """Returns an empty list for the weights of rows."""
        return array(self.words.code)

    def rows(self, given: Sequence[Any]) -> Iterator[tuple[array[int], int, int]]:
        """Yields several rows of equal width at a time: their weights, the width, and the number of rows."""
        self._known(given)
        return self._packed(given[0], 0)

    def _packed(self, rows: Any, start: int) -> Iterator[tuple[array[int], int, int]]:
        """Does the same as ``rows``, for rows of which the first is number ``start``."""
        packed = self._nothing()
        width = 0
        for row in self._listed(rows, start):
            if packed and (len(row) != width or len(packed) + width > ROWS_AT_A_TIME):
                yield packed, width, len(packed) // width
                packed = self._nothing()
            width = len(row)
            if not width:
                yield row, 1, 1  # A row without weights. The C function refuses it.
            packed += row
        if packed:
            yield packed, width, len(packed) // width

    def _listed(
        self, rows: Any, start: int = 0, convert: Callable[[Any], array[int]] | None = None
    ) -> list[array[int]]:
        """Returns the weights of each row. An exception names the row, of which the first is number ``start``."""
        place, converted = start - 1, convert or self._row

        def row(numbers: Any) -> array[int]:
            nonlocal place
            place += 1
            return converted(numbers)

        try:
            return rows_of(rows, row)
        except (ValueError, TypeError) as it:
            raise type(it)(f"{it} in row {place}") if place >= start else it from None


class WeightTable(Rows):
    """A model with the caller's weights: symbol 0 has the first weight, symbol 1 the next, and so on.

    The weights are whole numbers that add up to 2^24, or to 2^12 for coders with words of 16 bits. The model copies
    them. If the weights are missing, pass a row of weights for each symbol to the coder's calls.

    >>> from constriction.stream.stack import AnsCoder
    >>> coder, model = AnsCoder(), WeightTable([3, 2, 16777211])
    >>> coder.encode_reverse([1, 1], model)
    >>> coder.get_compressed().tolist()
    [16777220]

    The weights of several tables are a list of rows of one width, or an array of two dimensions. Then pass the index of
    its table for each symbol to the coder's calls, as whole numbers, or one index for all.

    >>> coder, model = AnsCoder(), WeightTable([[3, 2, 16777211], [8388608, 0, 8388608]])
    >>> coder.encode_reverse([1, 2, 0], model, [0, 1, 1])
    >>> coder.decode(model, 0)
    1
    >>> coder.decode(model, [1, 1]).tolist()
    [2, 0]
    """

    def __init__(self, weights: List | Iterable[List] | None = None) -> None:
        """Creates a model with these weights: whole numbers that add up to 2^24, or to 2^12 for words of 16 bits.

        If you leave them out, pass a row of weights for each symbol to the coder's calls. With several rows, pass the
        index of a row for each symbol.
        """
        if weights is None:
            self.missing = ("weights",)
        elif is_matrix(weights):
            self._fixed = self._hold(self._listed(weights))
        else:
            self._fixed = self._row(weights)

    def _row(self, numbers: Any) -> array[int]:
        if type(numbers) is list:
            try:
                return array(self.words.code, numbers)
            except (TypeError, OverflowError):
                pass  # `words_of` raises an exception that names the weight.
        return words_of(numbers, "weight", WrongWeightsError, self.words.code)

    def _refixed(self, words: Size) -> array[int] | None:
        if self._fixed is None:
            return None
        width = len(self._fixed) if self._width is None else self._width
        for start in range(0, max(len(self._fixed), 1), max(width, 1)):
            total, where = (
                sum(self._fixed[start : start + width]),
                "" if self._width is None else f" in row {start // width}",
            )
            if total != words.total:
                raise WrongWeightsError(f"{wrong_weights(words.total)}, got a sum of {total}{where}")
        return array(words.code, self._fixed)

    def rows(self, given: Sequence[Any]) -> Iterator[tuple[array[int], int, int]]:
        """Does the same as ``Rows.rows``. Copies the rows of a numpy array together."""
        self._known(given)
        table = as_numpy(given[0])
        if table is None or table.ndim != 2 or table.dtype.kind not in "iu" or not table.size:
            yield from super().rows(given)
            return
        width = table.shape[1]
        size = max(ROWS_AT_A_TIME // width, 1)
        for start in range(0, len(table), size):
            some = table[start : start + size]
            try:
                yield wholes_of(self.words.code, some.ravel()), width, len(some)
            except OverflowError:
                yield from self._packed(some, start)  # This raises an exception that names the weight.


class Categorical(Rows):
    """A model of the symbols 0, 1, .. with these probabilities or counts. Only their proportions matter.

    Whole numbers below 2^64 aren't rounded. Other numbers are rounded once, to a multiple of 2^-62 times the power of
    two above the greatest number, and to at least one such multiple. So a symbol with the probability 0 can be encoded
    too. A count of 0 gets an equally small share.

    All later computations are in whole numbers. Each symbol gets a weight of at least 1, and the others share the rest
    of 2^24 in proportion (of 2^12 for words of 16 bits). Shares are rounded by the largest remainders, and ties go to
    the first symbol.

    With ``perfect=False`` a long row takes less time, and the weights are rounded less closely. Each probability becomes
    a count: it is multiplied by the row's unit and rounded once, half to even. The unit is the power of two that makes
    the greatest count at least 2^30 and at most 2^31. If the counts then add up to 2^40 or more, the unit is divided by
    the least power of two that brings this sum below 2^39. Whole numbers below 2^32 that add up to less than 2^40 are
    the counts themselves. Of n symbols, symbol k begins at ``sum(counts[:k]) * (2**24 - n) // sum(counts) + k`` (with
    ``2**12`` for words of 16 bits). So a symbol whose count is 0 has a weight of 1.

    Raises ValueError if no probability is above 0, if a probability is negative or not finite, or if there are more
    than 2^24 probabilities (2^24 or more with ``perfect=False``).

    If the probabilities are missing, pass a row for each symbol to the coder's calls. ``lazy`` is ignored. In the Rust
    crate's package it chooses when to round.

    The probabilities of several tables are a list of rows of one width, or an array of two dimensions. Each row is
    rounded once, here. Then pass the index of its table for each symbol to the coder's calls, or one index for all.

    >>> from constriction.stream.queue import RangeEncoder
    >>> encoder, model = RangeEncoder(), Categorical([[0.5, 0.25, 0.25], [0.125, 0.125, 0.75]])
    >>> encoder.encode([1, 2, 2], model, [0, 1, 1])
    >>> encoder.get_decoder().decode(model, [0, 1, 1]).tolist()
    [1, 2, 2]
    >>> Categorical([1, 2, 1]).table().tolist() == [2**22, 2**23, 2**22]
    True
    >>> Categorical([0.25, 0.5, 0.25]) == Categorical([1, 2, 1])
    True
    >>> Categorical([0.75, 0.25, 0.0], perfect=False).table().tolist()
    [12582910, 4194305, 1]
    """

    def __init__(
        self,
        probabilities: Reals | Iterable[Reals] | None = None,
        *,
        perfect: bool | None = None,
        lazy: bool | None = None,
    ) -> None:
        """Creates a model with probabilities or counts. Only their proportions matter.

        If you leave them out, pass a row for each symbol to the coder's calls. With several rows, pass the index of a
        row for each symbol. ``perfect=False`` rounds in less time. ``lazy`` is ignored.
        """
        if perfect is not None and not perfect:
            self.rows_form, self._form = "_counts", COUNTS
        self._given: list[array[Any]] = []
        if probabilities is None:
            self.missing = ("probabilities",)
        elif is_matrix(probabilities):
            self._fixed = self._hold(self._listed(probabilities, convert=self._kept))
        else:
            self._fixed = self._kept(probabilities)

    def _kept(self, probabilities: Any) -> array[int]:
        """Keeps a row of probabilities or counts, and returns its weights."""
        given = self._counted(probabilities)
        weights = self._shared(given)
        self._given.append(given)
        return weights

    def _compared(self) -> dict[str, Any]:
        """Returns the weights for words of both sizes."""
        tables = tuple(self._at(it)._every() for it in self._sizes()) if self._given else ()
        form = ROW if self._given else self._form
        return {"missing": self.missing, "form": form, "tables": tables, "width": self._width}

    def _said(self) -> str:
        """Returns the weights of the symbols as text, and how they are rounded."""
        said = super()._said()
        return ", ".join(filter(None, (said, "perfect=False"))) if self._form == COUNTS else said

    def _sizes(self) -> tuple[Size, ...]:
        """Returns the sizes of words for which there are weights."""
        most = SMALL.total - (self._form == COUNTS)
        return (LARGE, SMALL) if self._given and len(self._given[0]) <= most else (LARGE,)

    def _at(self, words: Size) -> Categorical:
        """Does the same as ``at``."""
        return self.at(words)  # type: ignore[return-value]

    def __getstate__(self) -> dict[str, Any]:
        return {name: it for name, it in super().__getstate__().items() if name != "_fixed"}

    def _weights(self, parameters: tuple[Any, ...]) -> array[int]:
        weights = array(self.words.code)
        for row in self._given:
            weights += self._shared(row)
        return weights

    def _shared(self, given: array[Any]) -> array[int]:
        """Returns weights in proportion to a row of floats or counts."""
        if self._form == COUNTS:
            return quick_weights(given, self.words)
        sized(len(given), self.words)
        weights = room(self.words.code, len(given), array)
        if given.typecode != NUMBER:
            self.words.share_counts(*given.buffer_info(), *weights.buffer_info())
            return weights
        try:
            self.words.share_floats(*given.buffer_info(), *weights.buffer_info())
        except WrongWeightsError:
            raise wrong_probabilities(given) from None
        return weights

    def _row(self, numbers: Any) -> array[int]:
        counts = self._counted(numbers)
        return counts if self._form == COUNTS else self._shared(counts)

    def _nothing(self) -> array[int]:
        return array("I") if self._form == COUNTS else super()._nothing()

    def alone_by(self, given: tuple[Any, ...]) -> tuple[int, Any, Any] | None:
        if self._width is not None:
            return self._alone_at(given, self._width)
        if len(given) != 1 or not self.missing:
            return None
        row = given[0]
        if (
            type(row) is _buffers.array_class
            and row.ndim == 1
            and row.dtype.char in "df"
            and 0 < len(row) <= MOST_FLOATS
        ):
            return QUICK if self._form == COUNTS else FLOATS, row, None
        if not is_row(row):
            return None
        counts = self._counted(row)
        if counts.typecode == NUMBER:
            return FLOATS, counts, None
        return COUNTS if self._form == COUNTS else SHARED, counts, None

    def _counted(self, numbers: Any) -> array[Any]:
        """Returns the counts that probabilities or counts stand for, or floats whose counts a C function computes."""
        given, wholes = numbers, None
        if type(numbers) is not list or not _FLOAT.issuperset(map(type, numbers)):
            if is_one(numbers):
                raise TypeError(f"expected a list of probabilities, got {type(numbers).__name__}")
            given = sequence_of(numbers)
            wholes = _wholes(given)
        if self._form == COUNTS:
            return self._quickly_counted(given, wholes)
        sized(len(given))
        if wholes is not None:
            return counts_of_wholes(wholes)
        return floats_of(given)

    def _quickly_counted(self, given: Any, wholes: Any) -> array[int]:
        """Returns the counts of a row with ``perfect=False``. ``wholes`` are its whole numbers, or None for floats."""
        if wholes is not None:
            counts = _quick_counts_of_wholes(wholes)
            self._fewer(len(counts))
            return counts
        if not len(given):
            raise wrong_probabilities(())
        self._fewer(len(given))
        return quick_counts_of(floats_of(given))

    def _fewer(self, count: int) -> int:
        """Returns ``count``. Raises ValueError unless that number of symbols leaves quantiles for counts to share."""
        if not 1 <= count < self.words.total:
            raise ValueError(f"expected a model of 1 to 2^{self.words.precision} - 1 symbols, got {count}")
        return count

    def _rows_of_counts(self, given: Sequence[Any]) -> Iterator[tuple[array[int], int, int]]:
        """Does the same as ``rows`` with ``perfect=False``: the rows have counts."""
        self._known(given)
        table = as_numpy(given[0])
        if table is None or table.ndim != 2 or table.dtype.kind not in "iubf" or not table.size:
            yield from super().rows(given)
            return
        width = self._fewer(table.shape[1])
        size = max(ROWS_AT_A_TIME // width, 1)
        for start in range(0, len(table), size):
            some = table[start : start + size]
            counts = quick_counts_of_rows(some)
            if counts is None:
                yield from self._packed(some, start)  # This raises an exception that names the probability.
            else:
                yield counts, width, len(some)

    def rows(self, given: Sequence[Any]) -> Iterator[tuple[array[int], int, int]]:
        """Does the same as ``Rows.rows``. Rounds the rows of a numpy array together."""
        if self._form == COUNTS:
            yield from self._rows_of_counts(given)
            return
        table = table_of(given[0]) if len(given) == 1 else None
        if table is None or not self.missing:
            yield from super().rows(given)
            return
        width = sized(table.shape[1], self.words)
        size = max(ROWS_AT_A_TIME // width, 1)
        for start in range(0, len(table), size):
            some = table[start : start + size]
            try:
                weights = self._shared_rows(some)
            except WrongWeightsError:
                yield from self._packed(some, start)  # This raises an exception that names the probability.
                continue
            yield weights, width, len(some)

    def _shared_rows(self, table: Any) -> array[int]:
        """Returns the weights of each row of a numpy array of floats, one row after another."""
        floats, width = doubles(table).flatten(), table.shape[1]  # A copy, because C functions get own memory.
        weights = room(self.words.code, len(floats), array)
        at, to = floats.ctypes.data, weights.buffer_info()[0]
        for start in range(0, len(floats), width):
            self.words.share_floats(at + 8 * start, width, to + weights.itemsize * start, width)
        return weights


def _quick_counts_of_wholes(wholes: Any) -> array[int]:
    """Returns the counts of a list of ints, or of a numpy array of whole numbers."""
    found = None if isinstance(wholes, list) or not len(wholes) else quick_counts_of_rows(wholes.reshape(1, -1))
    return quick_counts_of_wholes(list(map(int, wholes))) if found is None else found


def _wholes(numbers: Any) -> Any:
    """Returns whole numbers as a numpy array if they are one, and otherwise as a list of ints.

    Returns None for other numbers.
    """
    table = as_numpy(numbers)
    if table is not None:
        return table if table.dtype.kind in "iub" and table.ndim == 1 else None
    if isinstance(numbers, (array, memoryview)):
        format = numbers.typecode if isinstance(numbers, array) else numbers.format
        return plain_of(numbers) if format in _WHOLE_FORMATS else None
    if not isinstance(numbers, (list, tuple, range)):
        return None
    kinds = set(map(type, numbers))
    if kinds == _INT:
        return list(numbers)
    try:
        return list(map(index, numbers)) if all(hasattr(it, "__index__") for it in kinds) else None
    except TypeError:
        return None  # Arrays without dimensions may have floats.
