"""Models of the symbols 0, 1, .. with one or two parameters: ``Bernoulli``, ``Uniform``, ``Binomial``."""

from __future__ import annotations

import math
from array import array
from collections.abc import Iterator, Sequence
from itertools import accumulate
from typing import Any, SupportsIndex

from ..._buffers import NUMBER, Real, numpy_module, room
from ..._numbers import floats_of, is_one, real, whole
from ..._sizes import LARGE, SMALL, Size
from ..._units import parts_of
from ...errors import shown
from ._base import ROW, Bound, Model, sized, spread
from ._table import ROWS_AT_A_TIME, Rows

__all__ = ["Bernoulli", "Binomial", "Uniform"]


class Bernoulli(Rows):
    """A model of the symbols 0 and 1. Symbol 1 has the probability ``p``.

    If ``p`` is missing, pass a list of probabilities to the coder's calls. ``perfect`` is ignored.

    The weight of 1 is ``p`` rounded once to a multiple of 2^-24, half to even, and at least 1 and at most 2^24 - 1. For
    words of 16 bits, 12 stands for 24. Raises ValueError if ``p`` isn't between 0 and 1.

    >>> Bernoulli(0.25).table().tolist() == [3 * 2**22, 2**22]
    True
    """

    core = 0

    def __init__(self, p: Real | None = None, *, perfect: bool | None = None) -> None:
        """Creates a model of the symbols 0 and 1, in which 1 has the probability ``p``.

        If you leave ``p`` out, pass a list of probabilities to the coder's calls.
        """
        self._p = None if p is None else real(p)
        if p is None:
            self.missing = ("p",)
        else:
            self._fixed = self._weights(())

    def _weights(self, parameters: tuple[Any, ...]) -> array[int]:
        return _pairs(parts_of(array(NUMBER, (self._p,)), self.words), self.words)  # type: ignore[arg-type]

    def _compared(self) -> dict[str, Any]:
        return {"tables": () if self._p is None else (self.at(LARGE).table(), self.at(SMALL).table())}

    def _said(self) -> str:
        return "" if self._fixed is None else repr(self._fixed[1] / self.words.total)

    def alone_by(self, given: tuple[Any, ...]) -> tuple[int, Any, Any] | None:
        if len(given) != 1 or not self.missing or not is_one(given[0]):
            return None
        one = parts_of(array(NUMBER, (real(given[0]),)), self.words)[0]
        return ROW, array(self.words.code, (self.words.total - one, one)), None

    def rows(self, given: Sequence[Any]) -> Iterator[tuple[array[int], int, int]]:
        """Yields two weights for each symbol, several symbols at a time."""
        self._known(given)
        ones = parts_of(floats_of(given[0]), self.words)
        for start in range(0, len(ones), ROWS_AT_A_TIME // 2):
            some = ones[start : start + ROWS_AT_A_TIME // 2]
            yield _pairs(some, self.words), 2, len(some)


def _pairs(ones: array[int], words: Size) -> array[int]:
    """Returns the weights of 0 and 1, alternately, from the weights of 1."""
    weights, numpy = room(words.code, 2 * len(ones), array), numpy_module()
    if numpy is not None and len(ones):
        table = numpy.frombuffer(weights, dtype=words.code).reshape(-1, 2)
        table[:, 1] = numpy.frombuffer(ones, dtype=words.code)
        table[:, 0] = words.total - table[:, 1]
    else:
        weights[0::2], weights[1::2] = array(words.code, map(words.total.__sub__, ones)), ones
    return weights


class Uniform(Model):
    """A model of the symbols 0 .. size - 1 with equal weights.

    Each weight is 2^24 / size (2^12 / size for words of 16 bits), rounded down. The last symbol's weight is greater by
    the remainder.

    If ``size`` is missing, pass a list of sizes to the coder's calls. Raises ValueError if a size isn't between 1 and
    2^24.

    >>> Uniform(3).table().tolist()
    [5592405, 5592405, 5592406]
    """

    def __init__(self, size: SupportsIndex | None = None) -> None:
        """Creates a model of the symbols 0 .. size - 1.

        If you leave ``size`` out, pass a list of sizes to the coder's calls.
        """
        self._count = None if size is None else sized(whole(size))
        if size is None:
            self.missing = ("size",)

    def _said(self) -> str:
        return "" if self._count is None else str(self._count)

    def _bounds(self, parameters: tuple[Any, ...]) -> tuple[int, Bound]:
        given, total = parameters[0] if parameters else self._count, self.words.total
        size = sized(_whole_float(given, "a size"), self.words)
        each = total // size
        return size, lambda place: place * each if place < size else total

    def _weights(self, parameters: tuple[Any, ...]) -> array[int]:
        size, bound = self._bounds(parameters)
        weights = array(self.words.code, (bound(1),)) * size
        weights[-1] = self.words.total - bound(size - 1)
        return weights


class Binomial(Model):
    """A model of the number of successes in ``n`` trials with probability ``p`` each: symbols 0 .. n.

    If ``n`` or ``p`` is missing, pass a list of values to the coder's calls, in this order.

    >>> from constriction.stream.queue import RangeEncoder
    >>> encoder = RangeEncoder()
    >>> encoder.encode([3, 9, 5], Binomial(10), [0.25, 0.75, 0.5])
    >>> encoder.get_decoder().decode(Binomial(10), [0.25, 0.75, 0.5]).tolist()
    [3, 9, 5]
    """

    def __init__(self, n: SupportsIndex | None = None, p: Real | None = None) -> None:
        """Creates a model of the number of successes in ``n`` trials, each with probability ``p``.

        If you leave one out, pass a list with one value for each symbol to the coder's calls.
        """
        self._n = None if n is None else whole(n)
        self._p = None if p is None else real(p)
        self.missing = tuple(name for name, it in (("n", n), ("p", p)) if it is None)
        if n is not None:
            sized(self._trials(n) + 1)
        if not self.missing:
            self.table()

    def _said(self) -> str:
        return ", ".join(f"{name}={it!r}" for name, it in (("n", self._n), ("p", self._p)) if it is not None)

    @staticmethod
    def _trials(n: Any) -> int:
        trials = _whole_float(n, "a number of trials")
        if trials < 0:
            raise ValueError(f"expected a number of trials of at least 0, got {shown(trials)}")
        return trials

    def _bounds(self, parameters: tuple[Any, ...]) -> tuple[int, Bound]:
        given = iter(parameters)
        n = self._trials(next(given) if self._n is None else self._n)
        p = next(given) if self._p is None else self._p
        if not 0 <= p <= 1:
            raise ValueError(f"expected a probability between 0 and 1, got {p}")
        sized(n + 1, self.words)
        sums = array("d", accumulate((_chance(n, k, p) for k in range(n + 1)), initial=0.0))
        return n + 1, spread(n + 1, self.words.total, lambda place: sums[place])


def _chance(n: int, k: int, p: float) -> float:
    """Returns the probability of ``k`` successes in ``n`` trials."""
    if p == 0 or p == 1:
        return 1.0 if k == n * p else 0.0
    ways: float = math.lgamma(n + 1) - math.lgamma(k + 1) - math.lgamma(n - k + 1)
    return float(math.exp(ways + k * math.log(p) + (n - k) * math.log1p(-p)))


def _whole_float(number: Any, what: str) -> int:
    """Converts a whole number that may be a float to an int. Raises ValueError if it isn't whole."""
    if isinstance(number, int):
        return number
    if not math.isfinite(number) or int(number) != number:
        raise ValueError(f"expected a whole number for {what}, got {number}")
    return int(number)
