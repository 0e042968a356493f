"""Symbols as a caller of ``decode`` gets them: an array of a shape, of a type, or in the caller's own array."""

from __future__ import annotations

from typing import Any, NamedTuple

from . import _buffers
from ._buffers import BYTE, SHORT, SYMBOL, Numbers, answered, numpy_for_answers, numpy_module
from ._numbers import count_of
from ._shapes import Shape
from .errors import WrongLengthError
from .stream.model import Model

__all__ = ["AS_USUAL", "Wanted", "shape_counted", "shifted"]


def shape_counted(amt: Any) -> Shape:
    """Returns the shape of ``amt`` symbols: a number of them, or a tuple of such numbers."""
    if not isinstance(amt, tuple):
        return (count_of(amt),)
    if len(amt) != 1 and numpy_for_answers() is None:
        raise TypeError(f"expected a number of symbols, got the shape {amt}, which needs numpy")
    return tuple(map(count_of, amt))


def shifted(places: Any, first: int) -> Any:
    """Converts indexes of a table to symbols: adds ``first`` to each index."""
    if not first or not len(places):
        return places
    if type(places) is _buffers.array_class:
        places += first
        return places
    numpy = numpy_module()
    if numpy is not None:
        numpy.frombuffer(places, dtype="int64")[:] += first
        return places
    return Numbers(SYMBOL, map(first.__add__, places))


def _integers(kind: Any) -> None:
    if kind.kind not in "iu":
        raise TypeError(f"expected an integer type, got {kind}")


class Wanted(NamedTuple):
    """What a caller said of the array of symbols: numpy's type of it, or the array itself, or neither."""

    dtype: Any = None
    out: Any = None

    def check(self, shape: Shape) -> None:
        """Raises an exception if the caller can't get an array of this shape. A single symbol has no dimensions."""
        if len(shape) > 1 and numpy_for_answers() is None:
            raise TypeError(f"expected lists of one dimension, because numpy can't be imported, got the shape {shape}")
        if self.dtype is None and self.out is None:
            return
        numpy, name = numpy_for_answers(), "dtype" if self.out is None else "out"
        if numpy is None:
            raise TypeError(f"expected no {name}, because numpy can't be imported, got one")
        if self.out is None:
            return _integers(numpy.dtype(self.dtype))
        if self.dtype is not None:
            raise TypeError("expected dtype or out, got both")
        masked = isinstance(self.out, numpy.ma.MaskedArray)  # A hard mask would keep symbols out.
        if masked or not isinstance(self.out, numpy.ndarray) or not shape:
            text = "for an array of symbols" if not shape else f"as a numpy array, got {type(self.out).__name__}"
            raise TypeError(f"expected out {text}")
        _integers(self.out.dtype)
        if not self.out.flags.writeable:
            raise ValueError("expected out to be writeable, got an array that isn't")
        if self.out.shape != shape:
            raise WrongLengthError(f"expected out of shape {shape}, got {self.out.shape}")

    def code(self, model: Model) -> str:
        """Returns the typecode of symbols decoded with a model's own table: a narrow one if the caller wants that."""
        if self.dtype is not None and not model.first:
            kind = numpy_module().dtype(self.dtype)
            code = {1: BYTE, 2: SHORT}.get(kind.itemsize, SYMBOL) if kind.kind == "u" and kind.isnative else SYMBOL
            if code != SYMBOL and len(model.table()) <= 1 << 8 * kind.itemsize:
                return code
        return SYMBOL

    def given(self, symbols: Any, shape: Shape) -> Any:
        """Returns symbols as the caller gets them. Raises ValueError if a symbol doesn't fit the type."""
        found = answered(symbols)
        if self.dtype is not None or self.out is not None:
            found = self._typed(found)
        found = found if len(shape) == 1 else found.reshape(shape)
        if self.out is None:
            return found
        self.out[...] = found
        return self.out

    def _typed(self, found: Any) -> Any:
        """Returns a numpy array of symbols with the wanted type."""
        numpy = numpy_module()
        kind = numpy.dtype(self.dtype) if self.out is None else self.out.dtype
        limits, own = numpy.iinfo(kind), numpy.iinfo(found.dtype)
        if found.size and not (limits.min <= own.min and own.max <= limits.max):
            for symbol in (found.min(), found.max()):
                if not limits.min <= int(symbol) <= limits.max:
                    raise ValueError(f"expected symbols that fit {kind}, got {symbol}")
        return found.astype(kind, copy=False)


#: The caller said nothing.
AS_USUAL = Wanted()
