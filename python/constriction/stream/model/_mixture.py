"""``QuantizedMixture``: a model of whole numbers, with a mixture of distributions that is computed in whole numbers."""

from __future__ import annotations

from array import array
from collections.abc import Iterator, Sequence
from itertools import repeat
from typing import Any, NamedTuple

from ..._buffers import lent
from ..._numbers import grid_of
from ..._units import component_weights_of, components_of, locations_of, moved, scales_of, wrong_row
from ...errors import Refusal, WrongLengthError, WrongWeightsError
from ._base import MIXED, Model, shown_range
from ._quantized import _Quantized

__all__ = ["QuantizedMixture"]


class Mixed(NamedTuple):
    """A family of distributions over a range, and a row of components for each symbol.

    Each component has a weight, a location and a scale.
    """

    family: int
    least: int
    greatest: int
    width: int
    weights: array[int]
    locations: array[int]
    scales: array[int]

    @property
    def form(self) -> str:
        """The part of the names of a coder's C functions that says how they take the models."""
        return "_mixture"

    @property
    def symbols(self) -> int:
        """The number of symbols that have parameters."""
        return len(self.scales) // self.width

    @property
    def costs(self) -> int:
        """The number of weights that decides how many symbols a part of a list has."""
        return 0

    def rows(self) -> Iterator[Sequence[int]]:
        """Yields a row for each symbol, whose items are above 0 for the symbols of the range."""
        return repeat(range(1, self.greatest - self.least + 2))

    def lent(self, part: slice) -> tuple[Any, ...]:
        """Returns the arguments for C functions, with the parameters of a part of the symbols."""
        start, count = part.start * self.width, (part.stop - part.start) * self.width
        lists = (lent(self.weights, start), count, lent(self.locations, start), count, lent(self.scales, start), count)
        return self.family, self.least, self.greatest, self.width, *lists


class QuantizedMixture(Model):
    """A model of whole numbers with a mixture of distributions of one family.

    ``components`` is a model of a family, such as :class:`QuantizedLogistic`, without parameters. It is the family and
    the range. Pass weights, means and scales to the coder's calls, each of shape ``(n, K)``: a row of ``K`` components
    for each of the ``n`` symbols. For a single symbol pass lists of ``K`` numbers.

    The mixture's distribution function is the weighted mean of the components' distribution functions. The weights of
    each row add up to more than 0 and at most 2. Weights are rounded to multiples of 2^-31, and only their proportions
    matter. Means and scales are rounded like those of the components. All later computations are in whole numbers, so
    equal parameters give equal words on every machine.

    Raises WrongWeightsError if the weights of a row have another sum, WrongLengthError if shapes differ, and ValueError
    if a number isn't finite, a weight is negative or a scale isn't positive and below 65536.

    >>> from constriction.stream.model import QuantizedLogistic
    >>> from constriction.stream.queue import RangeEncoder
    >>> encoder, model = RangeEncoder(), QuantizedMixture(QuantizedLogistic(-128, 127))
    >>> weights, means, scales = [[0.5, 0.5], [0.25, 0.75]], [[4.0, 9.0], [-3.0, 0.5]], [[1.0, 2.0], [1.0, 1.0]]
    >>> encoder.encode([5, -3], model, weights, means, scales)
    >>> encoder.get_decoder().decode(model, weights, means, scales).tolist()
    [5, -3]
    """

    core = 1

    def __init__(self, components: _Quantized) -> None:
        """Creates a model of mixtures with the family and the range of ``components``."""
        if not isinstance(components, _Quantized) or components.missing != components._names or components.size < 2:
            raise TypeError(
                "expected a quantized model of at least two symbols and without parameters, such as QuantizedLogistic(-9, 9),"
                f" got {components!r}"
            )
        self._components = components
        self.first, self._count = components.first, components.size
        self.missing = ("weight", *components._names)

    def _said(self) -> str:
        kind, of = type(self._components).__name__, self._components
        return f"{kind}({shown_range(of.first, of.size)})"

    def alone_by(self, given: tuple[Any, ...]) -> tuple[int, Any, Any] | None:
        if len(given) != 3:
            return None
        found = components_of(given, self._components._origin)
        return None if found is None else (MIXED, *found)

    def explained(self, refused: Refusal, given: Sequence[Any]) -> Refusal:
        """Returns the exception with a text that names the symbol whose weights have a wrong sum."""
        return wrong_row(*grid_of(given[0])) if type(refused) is WrongWeightsError and given else refused

    def located(self, given: Sequence[Any]) -> Any:
        """Returns weights, locations and scales as arguments for C functions."""
        self._known(given)
        grids = [grid_of(it) for it in given]
        (weights, width), (locations, _), (scales, _) = grids
        if any((len(floats), wide) != (len(weights), width) for floats, wide in grids):
            shapes = " and ".join(f"({len(floats) // max(wide, 1)}, {wide})" for floats, wide in grids)
            raise WrongLengthError(f"expected weights and parameters of one shape (n, K), got {shapes}")
        of = self._components
        name, other = of._names
        return Mixed(
            of._family, of._least, of._least + of.size - 1, width, component_weights_of(weights, width),
            locations_of(name, moved(locations, of._origin), width), scales_of(other, scales, width),
        )  # fmt: skip

    def table(self) -> array[int]:
        """Raises an exception, because a mixture has no table of its own."""
        raise TypeError("expected rows of weights, of means and of scales after the model, got none")
