"""``QuantizedGaussian``, ``QuantizedLaplace`` and ``QuantizedLogistic``.

These models of whole numbers have distributions that are computed in whole numbers.
"""

from __future__ import annotations

from array import array
from collections.abc import Sequence
from typing import Any, SupportsIndex

from ..._buffers import NUMBER, SYMBOL, WORD, Real, listed, room
from ..._numbers import floats_of, real
from ..._units import FARTHEST, NARROWEST, UNITS_OF_ONE, WIDEST, locations_of, moved, quick_units_of, scales_of, unit_of
from ._base import UNITS, Bound, Located, Model, equally_long, ranged, shown_range

__all__ = ["QuantizedGaussian", "QuantizedLaplace", "QuantizedLogistic"]

#: The C functions take ranges from -2^31 to below 2^31.
_SYMBOLS = 1 << 31
#: The number of weights that one call computes for a table.
_WEIGHTS_AT_A_TIME = 1 << 16


class _Quantized(Model):
    """The base of the models with a location and a scale.

    Symbol ``s`` gets the probability between ``s - 0.5`` and ``s + 0.5``. The probability outside the range goes to the
    two ends of the range.

    The C functions make the tables from a location and a scale in units of 2^-16. Floats are rounded to these units
    once. A scale is at least 1 and at most 2^32 - 1 units. One of 2^32 units or more is refused.
    """

    _count: int
    _family: int
    _names: tuple[str, str]
    _own_location: int | None
    _own_scale: int | None

    def _make(self, least: SupportsIndex, greatest: SupportsIndex, location: Real | None, scale: Real | None) -> None:
        self.first, self._count = ranged(least, greatest)
        # A range that the C functions don't take is moved towards 0, by a number that is exact as a float. The
        # locations are moved by the same number.
        origin = 0 if self._fits(self.first) else int(float(self.first))
        moved = self.first - origin
        self._least, self._origin = moved if self._fits(moved) else 0, float(origin)
        given = zip(self._names, (location, scale))
        self.missing = tuple(name for name, it in given if it is None)
        # The model's own parameters, in units. The first call that needs the table makes it.
        name, other = self._names
        self._own_location = (
            None if location is None else self._units_of_locations(name, array(NUMBER, (real(location),)))[0]
        )
        self._own_scale = None if scale is None else scales_of(other, array(NUMBER, (real(scale),)))[0]

    def _said(self) -> str:
        """Returns the parameters, rounded, as the text of arguments."""
        (name, other), location, scale = self._names, self._own_location, self._own_scale
        given = {
            name: None if location is None else location / UNITS_OF_ONE + self._origin,
            other: None if scale is None else scale / UNITS_OF_ONE,
        }
        return shown_range(self.first, self._count, **given)

    def _units_of_locations(self, name: str, locations: array[float]) -> array[int]:
        return locations_of(name, moved(locations, self._origin))

    def _fits(self, first: int) -> bool:
        """Returns whether the C functions accept a range of this size that begins at ``first``."""
        return -_SYMBOLS <= first and first + self._count <= _SYMBOLS

    def _located(self, given: Sequence[Any]) -> Located:
        """Returns locations and scales, from the given parameters and the model's own parameters."""
        self._known(given)
        found = self._quickly_located(given) if len(given) == 2 and not self._origin else None
        if found is not None:
            return found
        lists = equally_long([floats_of(it) for it in given])
        count, (name, other) = len(lists[0]) if lists else 1, self._names
        if self._own_location is None:
            locations = self._units_of_locations(name, lists.pop(0))
        else:
            locations = array(SYMBOL, (self._own_location,)) * count
        scales = scales_of(other, lists.pop(0)) if self._own_scale is None else array(WORD, (self._own_scale,)) * count
        return Located(self._family, self._least, self._least + self._count - 1, locations, scales)

    def _quickly_located(self, given: Sequence[Any]) -> Located | None:
        """Does the same as ``_located`` in fewer steps, for two numpy arrays of floats that are within the bounds."""
        locations = quick_units_of(given[0], -FARTHEST, FARTHEST, "int64")
        scales = None if locations is None else quick_units_of(given[1], NARROWEST, WIDEST, "uint32")
        if scales is None or len(locations) != len(scales):
            return None
        return Located(self._family, self._least, self._least + self._count - 1, locations, scales)

    def _seldom(self) -> tuple[int, Any, Any] | None:
        return (
            (UNITS, self._own_location, self._own_scale)
            if self._fixed is None and self._count > 1
            else super()._seldom()
        )

    def alone_by(self, given: tuple[Any, ...]) -> tuple[int, Any, Any] | None:
        """Returns a location and a scale in units.

        Returns None if one isn't a plain number, or isn't within the bounds.
        """
        if len(given) != len(self.missing) or self._count == 1:
            return None
        location, scale, last = self._own_location, self._own_scale, given[-1]
        if location is None:
            location = unit_of(given[0], self._origin, -FARTHEST, FARTHEST)
        if scale is None:
            scale = unit_of(last, 0.0, NARROWEST, WIDEST)
        return None if location is None or scale is None else (UNITS, location, scale)

    def located(self, given: Sequence[Any]) -> Located | None:
        return self._located(given) if self._count > 1 else None

    def parameters(self, given: Sequence[Any]) -> list[tuple[Any, ...]]:
        it = self._located(given)
        return list(zip(it.locations, it.scales))

    def _bounds(self, parameters: tuple[Any, ...]) -> tuple[int, Bound]:
        """Returns the bounds of a model with one symbol, which has the whole weight.

        The C functions make the tables of models with more symbols.
        """
        assert self._count == 1
        return 1, lambda place: self.words.total if place else 0

    def _weights(self, parameters: tuple[Any, ...]) -> array[int]:
        it = self._located(parameters)
        if self._count == 1:
            return array(self.words.code, (self.words.total,))
        weights = array(self.words.code)
        for start in range(0, self._count, _WEIGHTS_AT_A_TIME):
            places = array(SYMBOL, range(start, min(start + _WEIGHTS_AT_A_TIME, self._count)))
            count = len(places)
            alike = it._replace(locations=it.locations * count, scales=it.scales * count)
            lefts, ps = room(self.words.code, count, array), room(self.words.code, count, array)
            self.words.call(
                "quantized_intervals", *alike.lent(slice(0, count)), *listed(places), *listed(lefts), *listed(ps)
            )
            weights += ps
        return weights


class QuantizedGaussian(_Quantized):
    """A model of the whole numbers ``min_symbol_inclusive .. max_symbol_inclusive``, with a normal distribution.

    Symbol ``s`` gets the probability between ``s - 0.5`` and ``s + 0.5``. The probability outside the range goes to the
    two ends of the range. Each symbol has a weight of at least 1. If ``mean`` or ``std`` is missing, pass a list of
    values to the coder's calls, in this order.

    The mean and the deviation are rounded to multiples of 2^-16, half to even. A deviation below 2^-16 counts as
    2^-16, and one between 65536 - 2^-16 and 65536 as 65536 - 2^-16. All later computations are in whole numbers, so
    equal parameters give equal words on every machine.

    Raises ValueError if the mean isn't finite, if the deviation isn't positive and below 65536, or if the range has no
    symbol or more than 2^24 symbols.

    >>> from constriction.stream.stack import AnsCoder
    >>> coder, model = AnsCoder(), QuantizedGaussian(-100, 100)
    >>> coder.encode_reverse([7, -20], model, [3.5, -19.5], [2.25, 0.5])
    >>> coder.decode(model, [3.5, -19.5], [2.25, 0.5]).tolist()
    [7, -20]
    """

    _family = 0
    _names = ("mean", "std")

    def __init__(
        self,
        min_symbol_inclusive: SupportsIndex,
        max_symbol_inclusive: SupportsIndex,
        mean: Real | None = None,
        std: Real | None = None,
    ) -> None:
        """Creates a model of the symbols ``min_symbol_inclusive .. max_symbol_inclusive``.

        ``mean`` and ``std`` are numbers. If you leave one out, pass a list with one value for each symbol to the
        coder's calls.
        """
        self._make(min_symbol_inclusive, max_symbol_inclusive, mean, std)


class QuantizedLaplace(_Quantized):
    """A model like :class:`QuantizedGaussian`, with a Laplace distribution.

    At the distance ``scale`` from ``mean``, the density has fallen by the factor ``1 / e``.

    >>> from constriction.stream.stack import AnsCoder
    >>> coder, model = AnsCoder(), QuantizedLaplace(-100, 100, 0.0, 2.5)
    >>> coder.encode_reverse([1, 0, -4], model)
    >>> coder.decode(model, 3).tolist()
    [1, 0, -4]
    """

    _family = 1
    _names = ("mean", "scale")

    def __init__(
        self,
        min_symbol_inclusive: SupportsIndex,
        max_symbol_inclusive: SupportsIndex,
        mean: Real | None = None,
        scale: Real | None = None,
    ) -> None:
        """Creates a model of the symbols ``min_symbol_inclusive .. max_symbol_inclusive``.

        ``mean`` and ``scale`` are numbers. If you leave one out, pass a list with one value for each symbol to the
        coder's calls.
        """
        self._make(min_symbol_inclusive, max_symbol_inclusive, mean, scale)


class QuantizedLogistic(_Quantized):
    """A model like :class:`QuantizedGaussian`, with a logistic distribution.

    Its distribution function is ``1 / (1 + exp(-(x - mean) / scale))``.

    >>> from constriction.stream.stack import AnsCoder
    >>> coder, model = AnsCoder(), QuantizedLogistic(-100, 100, 0.0, 2.5)
    >>> coder.encode_reverse([1, 0, -4], model)
    >>> coder.decode(model, 3).tolist()
    [1, 0, -4]
    """

    _family = 2
    _names = ("mean", "scale")

    def __init__(
        self,
        min_symbol_inclusive: SupportsIndex,
        max_symbol_inclusive: SupportsIndex,
        mean: Real | None = None,
        scale: Real | None = None,
    ) -> None:
        """Creates a model of the symbols ``min_symbol_inclusive .. max_symbol_inclusive``.

        ``mean`` and ``scale`` are numbers. If you leave one out, pass a list with one value for each symbol to the
        coder's calls.
        """
        self._make(min_symbol_inclusive, max_symbol_inclusive, mean, scale)
