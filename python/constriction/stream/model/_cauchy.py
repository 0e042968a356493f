"""``QuantizedCauchy``: a model of whole numbers that computes weights in floats."""

from __future__ import annotations

import math
from typing import Any, SupportsIndex

from ..._buffers import Real
from ..._numbers import real
from ._base import Bound, Model, ranged, shown_range, spread

__all__ = ["QuantizedCauchy"]


class QuantizedCauchy(Model):
    """A model of the whole numbers ``min_symbol_inclusive .. max_symbol_inclusive``, with a Cauchy distribution.

    Half of the distribution lies within ``scale`` of ``loc``. The weights are computed in floats.

    Symbol ``s`` gets the probability between ``s - 0.5`` and ``s + 0.5``. The probability outside the range goes to the
    two ends of the range. If ``loc`` or ``scale`` is missing, pass a list of values to the coder's calls, in this
    order.

    >>> from constriction.stream.queue import RangeEncoder
    >>> encoder, model = RangeEncoder(), QuantizedCauchy(-100, 100, 0.0, 2.5)
    >>> encoder.encode([1, 0, 87], model)
    >>> encoder.get_decoder().decode(model, 3).tolist()
    [1, 0, 87]
    """

    _count: int

    def __init__(
        self,
        min_symbol_inclusive: SupportsIndex,
        max_symbol_inclusive: SupportsIndex,
        loc: Real | None = None,
        scale: Real | None = None,
    ) -> None:
        """Creates a model of the symbols ``min_symbol_inclusive .. max_symbol_inclusive``.

        ``loc`` and ``scale`` are numbers. If you leave one out, pass a list with one value for each symbol to the
        coder's calls.
        """
        self.first, self._count = ranged(min_symbol_inclusive, max_symbol_inclusive)
        self._location = None if loc is None else real(loc)
        self._scale = None if scale is None else real(scale)
        self.missing = tuple(name for name, it in (("loc", loc), ("scale", scale)) if it is None)
        if not self.missing:
            self.table()

    def _said(self) -> str:
        return shown_range(self.first, self._count, loc=self._location, scale=self._scale)

    def _bounds(self, parameters: tuple[Any, ...]) -> tuple[int, Bound]:
        given = iter(parameters)
        location = next(given) if self._location is None else self._location
        scale = next(given) if self._scale is None else self._scale
        if not (math.isfinite(location) and 0 < scale < math.inf):
            raise ValueError(f"expected a finite loc and a positive and finite scale, got {location} and {scale}")
        start = self.first - 0.5 - location
        return self._count, spread(
            self._count, self.words.total, lambda place: 0.5 + math.atan((start + place) / scale) / math.pi
        )
