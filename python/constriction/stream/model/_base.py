"""The base of all models: sums of weights from a distribution function, or a location and a scale for each symbol."""

from __future__ import annotations

import math
from array import array
from collections.abc import Callable, Iterator, Sequence
from copy import copy
from itertools import accumulate, repeat
from typing import Any, NamedTuple

from ..._buffers import lent, listed
from ..._numbers import floats_of, is_one, listed_of, whole
from ..._sizes import LARGE, Size
from ...errors import ImpossibleSymbolError, Refusal, WrongLengthError, impossible, shown

__all__ = [
    "COUNTS",
    "ENDS",
    "FALLS",
    "FLOATS",
    "FORMS",
    "MIXED",
    "QUICK",
    "ROW",
    "SHARED",
    "UNITS",
    "Bound",
    "Located",
    "Model",
    "equally_long",
    "lists_named",
    "ranged",
    "shown_range",
    "sized",
    "spread",
]

#: The forms of the model of a single symbol: 0 and the ends of the intervals, a location and a scale, a row of weights,
#: the numbers of components and how many these are, or a row of counts. A C function first computes weights from a row of
#: counts, or from a numpy array of floats. In the last form, a numpy array of floats becomes a row of counts.
FORMS = range(8)
ENDS, UNITS, ROW, MIXED, COUNTS, SHARED, FLOATS, QUICK = FORMS
#: After ``_SELDOM`` calls with one symbol, a model of at most ``_MOST_ENDS`` symbols keeps its sums of weights.
#: Before that, a model of at most ``_FEW_WEIGHTS`` symbols passes all weights.
_SELDOM, _MOST_ENDS, _FEW_WEIGHTS = 2, 1 << 16, 64
FALLS = "expected a cumulative distribution function that never falls, got one that falls"
#: The sum of the weights before the k-th symbol.
Bound = Callable[[int], int]


class Located(NamedTuple):
    """A family of distributions over a range, and a location and a scale for each symbol, in units of 2^-16."""

    family: int
    least: int
    greatest: int
    locations: Any
    scales: Any

    @property
    def form(self) -> str:
        """The part of the names of a coder's C functions that says how they take the models."""
        return "_quantized"

    @property
    def symbols(self) -> int:
        """The number of symbols that have parameters."""
        return len(self.scales)

    @property
    def costs(self) -> int:
        """The number of weights that decides how many symbols a part of a list has."""
        return 0

    def rows(self) -> Iterator[Sequence[int]]:
        """Yields a row for each symbol, whose items are above 0 for the symbols of the range."""
        return repeat(range(1, self.greatest - self.least + 2))

    def lent(self, part: slice) -> tuple[Any, ...]:
        """Returns the arguments for C functions, with the parameters of a part of the symbols."""
        start, count = part.start, part.stop - part.start
        return (
            self.family,
            self.least,
            self.greatest,
            lent(self.locations, start),
            count,
            lent(self.scales, start),
            count,
        )


class Model:
    """A weight for each symbol of a range that begins at ``first``.

    The state of a model consists of plain values, so a model can be copied and pickled.
    """

    #: The size of the coders' words. It determines the sum of the weights.
    words: Size = LARGE
    #: The least symbol.
    first: int = 0
    #: The names of the parameters that callers pass for each symbol. There are none if the model has all parameters.
    missing: tuple[str, ...] = ()
    #: The number of dimensions of a symbol's parameter: 1 if it is a row.
    core = 0
    #: Whether the parameters are whole numbers, and not floats.
    has_wholes = False
    #: Whether the parameters are rows of weights or counts for the C functions.
    has_rows = False
    #: The part of the names of a coder's C functions that says what the rows have.
    rows_form = "_each"
    _fixed: array[int] | None = None

    #: The number of symbols, if it is known without a table.
    _count: int | None = None
    #: The form of a model that is used often, for a call with one symbol and no parameters.
    _often: tuple[int, Any, Any] | None = None
    _uses = 0
    #: The same model for words of the other size, or None before its first use.
    _twin: Model | None = None

    def __getstate__(self) -> dict[str, Any]:
        state = vars(self).copy()  # Another thread may add an attribute meanwhile.
        return {name: it for name, it in state.items() if name not in ("_often", "_uses", "_twin")}

    def at(self, words: Size) -> Model:
        """Returns the same model for coders with words of this size."""
        if words is self.words:
            return self
        if self._twin is None:
            twin = copy(self)
            twin.words, twin._fixed = words, self._refixed(words)
            if twin._count is not None:
                sized(twin._count, words)
            self._twin = twin
        return self._twin

    def _refixed(self, words: Size) -> array[int] | None:
        """Returns the weights for words of this size, if the caller passed them. Otherwise returns None."""
        return None

    def _said(self) -> str:
        """Returns the model's arguments, for ``repr``."""
        return ""

    def _compared(self) -> dict[str, Any]:
        """Returns the attributes that are equal for equal models. A table that follows from the others is left out."""
        return {name: it for name, it in self.__getstate__().items() if name != "_fixed"}

    def __repr__(self) -> str:
        return f"{type(self).__name__}({self._said()})"

    def __eq__(self, other: object) -> bool:
        if type(self) is not type(other):
            return NotImplemented
        return bool(self._compared() == other._compared())  # type: ignore[attr-defined]

    def __hash__(self) -> int:
        return hash((type(self), self.first, self.missing))

    @property
    def size(self) -> int:
        """The number of symbols of a model that has all its parameters."""
        return len(self.table()) if self._count is None else self._count

    @property
    def complete(self) -> bool:
        """Whether the model has all its parameters, and takes no others."""
        return not self.missing

    def _bounds(self, parameters: tuple[Any, ...]) -> tuple[int, Bound]:
        """Returns the number of symbols, and a function: the sum of the weights before symbol number ``k``."""
        raise NotImplementedError

    def _weights(self, parameters: tuple[Any, ...]) -> array[int]:
        """Returns all weights with these parameters."""
        count, bound = self._bounds(parameters)
        ends = [bound(k) for k in range(count + 1)]
        weights = list(map(int.__sub__, ends[1:], ends))
        if min(weights) < 1:
            raise ValueError(FALLS)
        return array(self.words.code, weights)

    def _interval(self, symbol: int, parameters: tuple[Any, ...]) -> tuple[int, int]:
        """Returns the sum of the weights before a symbol, and the symbol's weight."""
        count, bound = self._bounds(parameters)
        place = symbol - self.first
        if not 0 <= place < count:
            raise impossible(symbol, None, self.first, count)
        left, end = bound(place), bound(place + 1)
        if left >= end:
            raise ValueError(FALLS)
        return left, end - left

    def around(self, quantile: int, parameters: tuple[Any, ...]) -> tuple[int, array[int]]:
        """Finds the symbol whose interval contains ``quantile``. Returns its index, and three weights.

        These are the sum of the weights before the symbol, the symbol's weight, and the sum of the weights after it.
        """
        count, bound = self._bounds(parameters)
        total = self.words.total
        low, high, left, end = 0, count, 0, total
        while high - low > 1:
            middle = (low + high) // 2
            at = bound(middle)
            if at - left < middle - low or end - at < high - middle:
                raise ValueError(FALLS)
            if at <= quantile:
                low, left = middle, at
            else:
                high, end = middle, at
        return low, array(self.words.code, (left, end - left, total - end))

    def table(self) -> array[int]:
        """Returns the weights of a model that has all its parameters. No caller writes to them."""
        if self._fixed is None:
            if self.missing:
                raise TypeError(f"expected {lists_named(self.missing)}, got none")
            self._fixed = self._weights(())
        return self._fixed

    def alone_by(self, given: tuple[Any, ...]) -> tuple[int, Any, Any] | None:
        """Returns the model's form for a call with one symbol and these parameters.

        Returns None if the symbol has to be passed as a list.
        """
        return None

    def _seldom(self) -> tuple[int, Any, Any] | None:
        """Does the same as ``alone``, for the first two calls."""
        table = self.table()
        return (ROW, table, None) if len(table) <= _FEW_WEIGHTS else None

    def alone(self) -> tuple[int, Any, Any] | None:
        """Does the same as ``alone_by`` without parameters, until the model is used often."""
        if self.missing:
            return None
        if self._uses < _SELDOM:
            self._uses += 1
            return self._seldom()
        table = self.table()
        if len(table) > _MOST_ENDS or sum(table) != self.words.total:
            return None
        self._often = ENDS, list(accumulate(table, initial=0)), None
        return self._often

    def _known(self, given: Sequence[Any]) -> None:
        if len(given) != len(self.missing):
            raise TypeError(f"expected {lists_named(self.missing)}, got {len(given)}")

    def parameters(self, given: Sequence[Any]) -> list[tuple[Any, ...]]:
        """Returns the parameters of each symbol, from one list of values for each parameter."""
        self._known(given)
        return list(zip(*equally_long([floats_of(it) for it in given])))

    def explained(self, refused: Refusal, given: Sequence[Any]) -> Refusal:
        """Returns the exception of a C function. Subclasses add the parameters at fault to its text."""
        return refused

    def located(self, given: Sequence[Any]) -> Located | None:
        """Returns the parameters for C functions that make the tables themselves. Returns None for other models."""
        return None

    def intervals(self, symbols: Any, given: Sequence[Any]) -> tuple[array[int], array[int]]:
        """Returns two lists: the sum of the weights before each symbol, and each symbol's weight."""
        one = is_one(symbols)
        sets = self.parameters([[it] for it in given] if one else given)
        listed = [whole(it) for it in listed_of(symbols)]
        if len(listed) != len(sets):
            raise WrongLengthError(
                f"expected as many sets of parameters as symbols, got {len(sets)} sets of parameters and {len(listed)} symbols"
            )
        lefts, ps = array(self.words.code), array(self.words.code)
        for place, (symbol, parameters) in enumerate(zip(listed, sets)):
            try:
                left, p = self._interval(symbol, parameters)
            except ImpossibleSymbolError:
                count, _ = self._bounds(parameters)
                raise impossible(symbol, None if one else place, self.first, count) from None
            lefts.append(left)
            ps.append(p)
        return lefts, ps

    def rows(self, given: Sequence[Any]) -> Iterator[tuple[array[int], int, int]]:
        """Yields the rows of weights that the parameters stand for, several at a time.

        Each item is the weights, the width of a row, and the number of rows.
        """
        raise NotImplementedError


def lists_named(names: Sequence[str]) -> str:
    """Returns the lists that a call takes after the model, as the text of a message."""
    if not names:
        return "no parameters after the model"
    count = "a list" if len(names) == 1 else f"{len(names)} lists"
    return f"{count} of parameters after the model ({', '.join(names)})"


def equally_long(lists: list[array[float]]) -> list[array[float]]:
    """Returns the lists of parameters. Raises WrongLengthError if their lengths differ."""
    lengths = [len(it) for it in lists]
    if any(it != lengths[0] for it in lengths):
        raise WrongLengthError(
            f"expected lists of parameters of one length, got the lengths {' and '.join(map(str, lengths))}"
        )
    return lists


def shown_range(first: int, count: int, **parameters: float | None) -> str:
    """Returns a range and parameters as the text of arguments."""
    given = [f"{name}={it!r}" for name, it in parameters.items() if it is not None]
    return ", ".join([str(first), str(first + count - 1), *given])


def spread(count: int, total: int, share: Callable[[int], float]) -> Bound:
    """Returns a function for the sums of weights of ``count`` symbols, which add up to ``total``.

    Each symbol gets a weight of 1, and ``share``, which grows from 0 to 1, shares out the rest.
    """
    free = total - count

    def bound(place: int) -> int:
        if place <= 0:
            return 0
        if place >= count:
            return total
        below = share(place)
        if below != below:
            raise ValueError(f"expected a number from the cumulative distribution function, got {below}")
        return place + math.floor(free * min(max(below, 0.0), 1.0))

    return bound


def sized(count: int, words: Size = LARGE) -> int:
    """Returns ``count``. Raises ValueError if weights can't be shared out to that number of symbols."""
    if not 1 <= count <= words.total:
        raise ValueError(f"expected a model of 1 to 2^{words.precision} symbols, got {shown(count)}")
    return count


def ranged(least: Any, greatest: Any) -> tuple[int, int]:
    """Returns the least symbol of a range, and the number of symbols.

    Raises ValueError if there are no symbols or too many, or if a symbol doesn't fit 64 bits with a sign.
    """
    first, last = whole(least), whole(greatest)
    count = sized(last - first + 1)
    if first < -(1 << 63) or last >= 1 << 63:
        raise ValueError(f"expected symbols between -2^63 and 2^63 - 1, got {shown(first)} .. {shown(last)}")
    return first, count
