"""The tables of a model that has several, and an index of a table for each symbol."""

from __future__ import annotations

from array import array
from collections.abc import Iterator, Sequence
from operator import index
from typing import Any, NamedTuple

from ..._buffers import SYMBOL, lent, listed
from ..._numbers import is_one, listed_of, whole, wholes_of
from ...errors import Refusal, WrongLengthError, WrongWeightsError, shown, wrong_weights

__all__ = ["Indexed", "explained", "indexes_of", "is_matrix", "joined", "table_alone"]

#: A part of a list has as many symbols as this times ``_WEIGHTS_AT_A_TIME`` for each weight of the tables, because each
#: part makes the tables anew.
_TIMES = 16


class Indexed(NamedTuple):
    """Tables of weights, one after another, and the index of a table for each symbol."""

    weights: array[int]
    width: int
    indexes: array[int]

    @property
    def form(self) -> str:
        """The part of the names of a coder's C functions that says how they take the models."""
        return "_indexed"

    @property
    def symbols(self) -> int:
        """The number of symbols that have indexes."""
        return len(self.indexes)

    @property
    def costs(self) -> int:
        """The number of weights that decides how many symbols a part of a list has."""
        return _TIMES * len(self.weights)

    def lent(self, part: slice) -> tuple[Any, ...]:
        """Returns the arguments for C functions, with the indexes of a part of the symbols."""
        return *listed(self.weights), self.width, lent(self.indexes, part.start), part.stop - part.start

    def rows(self) -> Iterator[Sequence[int]]:
        """Yields the weights of each symbol's table."""
        return (self.weights[at * self.width : (at + 1) * self.width] for at in self.indexes)


def is_matrix(numbers: Any) -> bool:
    """Returns whether these are rows of numbers: a list of lists, or an array of two dimensions."""
    dimensions = getattr(numbers, "ndim", None)
    if dimensions is not None:
        return bool(dimensions == 2)
    if not isinstance(numbers, (list, tuple)) or not numbers or isinstance(numbers[0], (str, bytes, bytearray)):
        return False
    return not is_one(numbers[0])


def joined(rows: list[array[int]]) -> tuple[array[int], int]:
    """Returns the rows of several tables, one after another, and the width of a row."""
    if not rows:
        raise WrongWeightsError("expected at least one table, got none")
    width = len(rows[0])
    for place, row in enumerate(rows):
        if not len(row):
            raise WrongWeightsError(f"expected at least one weight, got none in row {place}")
        if len(row) != width:
            raise WrongLengthError(f"expected rows of one width, {width} as row 0, got {len(row)} in row {place}")
    every = rows[0][:0]
    for row in rows:
        every += row
    return every, width


def indexes_of(numbers: Any) -> array[int]:
    """Returns a copy of a list of indexes, or of a single index.

    An index that doesn't fit 64 bits becomes -1, which is past all tables.
    """
    try:
        return array(SYMBOL, (whole(numbers),)) if is_one(numbers) else wholes_of(SYMBOL, numbers)
    except OverflowError:
        return array(SYMBOL, (it if 0 <= it < 1 << 63 else -1 for it in map(whole, listed_of(numbers))))


def table_alone(weights: array[int], width: int, number: Any) -> array[int] | None:
    """Returns the table of a single symbol. Returns None if ``number`` is a list, or isn't the index of a table."""
    if type(number) is not int:
        if not is_one(number):
            return None
        try:
            number = index(number)
        except TypeError:
            return None
    start = number * width
    return weights[start : start + width] if 0 <= start < len(weights) else None


def explained(refused: Refusal, weights: array[int], width: int, total: int, indexes: Any) -> Refusal:
    """Returns an exception that names the table with a wrong sum, or the index that is past the tables."""
    count = len(weights) // width
    if type(refused) is WrongWeightsError:
        for start in range(0, len(weights), width):
            found = sum(weights[start : start + width])
            if found != total:
                return WrongWeightsError(f"{wrong_weights(total)}, got a sum of {found} in row {start // width}")
    if type(refused) is WrongLengthError:
        for place, number in enumerate(map(whole, listed_of(indexes))):
            if not 0 <= number < count:
                return WrongLengthError(f"expected indexes from 0 to {count - 1}, got {shown(number)} at place {place}")
    return refused
