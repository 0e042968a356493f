"""``CustomModel`` and ``ScipyModel``: models of whole numbers with a distribution function of the caller."""

from __future__ import annotations

from collections.abc import Callable, Sequence
from typing import Any, SupportsIndex

from ..._numbers import floats_of, real
from ._base import FALLS, Bound, Model, equally_long, ranged, shown_range, spread

__all__ = ["CustomModel", "ScipyModel"]


class CustomModel(Model):
    """A model of ``min_symbol_inclusive .. max_symbol_inclusive`` with the caller's distribution function.

    ``cdf(x, *parameters)`` grows with ``x``, from 0 to 1. Symbol ``s`` gets the probability between ``s - 0.5`` and ``s
    + 0.5``. The probability outside the range goes to the two ends of the range. The number of parameters of ``cdf`` is
    the number of lists that the coder's calls pass. ``approximate_inverse_cdf`` is ignored. It is an argument because
    the Rust crate's package has it.

    >>> from math import exp
    >>> from constriction.stream.queue import RangeEncoder
    >>> encoder, model = RangeEncoder(), CustomModel(lambda x, rate: 1 - exp(-rate * max(x, 0)), None, 0, 100)
    >>> encoder.encode([3, 0, 12], model, [0.5, 2.0, 0.25])
    >>> encoder.get_decoder().decode(model, [0.5, 2.0, 0.25]).tolist()
    [3, 0, 12]
    """

    _count: int

    def __init__(
        self,
        cdf: Callable[..., Any],
        approximate_inverse_cdf: Callable[..., Any] | None,
        min_symbol_inclusive: SupportsIndex,
        max_symbol_inclusive: SupportsIndex,
    ) -> None:
        """Creates a model of the symbols ``min_symbol_inclusive .. max_symbol_inclusive``.

        ``cdf`` takes a float, and one more float for each list of parameters that the coder's calls pass.
        """
        if not callable(cdf):
            raise TypeError(f"expected a cumulative distribution function, got {type(cdf).__name__}")
        self._cdf = cdf
        self.first, self._count = ranged(min_symbol_inclusive, max_symbol_inclusive)

    def _said(self) -> str:
        return f"{getattr(self._cdf, '__qualname__', self._cdf)}, {shown_range(self.first, self._count)}"

    @property
    def complete(self) -> bool:
        return False  # The caller's function determines the number of parameters.

    def parameters(self, given: Sequence[Any]) -> list[tuple[Any, ...]]:
        return list(zip(*equally_long([floats_of(it) for it in given])))

    def _bounds(self, parameters: tuple[Any, ...]) -> tuple[int, Bound]:
        cdf, start = self._cdf, self.first - 0.5
        return self._count, spread(self._count, self.words.total, lambda place: real(cdf(start + place, *parameters)))

    def _interval(self, symbol: int, parameters: tuple[Any, ...]) -> tuple[int, int]:
        """Returns the interval of a symbol.

        Raises ValueError if a decoder's search doesn't lead from each quantile of the interval to the symbol. This
        happens only if the function falls somewhere.
        """
        left, weight = super()._interval(symbol, parameters)
        high, bound = self._bounds(parameters)
        low = 0
        while high - low > 1:
            middle = (low + high) // 2
            at = bound(middle)
            if at <= left:
                low = middle
            elif at >= left + weight:
                high = middle
            else:
                raise ValueError(FALLS)
        if low != symbol - self.first:
            raise ValueError(FALLS)
        return left, weight


class ScipyModel(CustomModel):
    """A model like :class:`CustomModel`, with the ``cdf`` of a distribution of ``scipy.stats``.

    Any object with a method ``cdf`` can be the distribution. A distribution with all its parameters is used as it is.
    For a family of distributions, pass a list of each parameter to the coder's calls, in the order of the family.

    >>> from statistics import NormalDist  # It has a method `cdf`, like the distributions of scipy.
    >>> from constriction.stream.queue import RangeEncoder
    >>> encoder, model = RangeEncoder(), ScipyModel(NormalDist(0.0, 3.0), -20, 20)
    >>> encoder.encode([1, 0, -4], model)
    >>> encoder.get_decoder().decode(model, 3).tolist()
    [1, 0, -4]
    """

    def __init__(
        self, scipy_model: Any, min_symbol_inclusive: SupportsIndex, max_symbol_inclusive: SupportsIndex
    ) -> None:
        """Creates a model of ``min_symbol_inclusive .. max_symbol_inclusive`` with ``scipy_model.cdf``."""
        super().__init__(scipy_model.cdf, None, min_symbol_inclusive, max_symbol_inclusive)
