"""Symbols and parameters of any shape, by numpy's rules of broadcasting. The C functions get them in C order."""

from __future__ import annotations

from collections.abc import Sequence
from math import prod
from typing import Any

from ._buffers import NUMBER, SYMBOL, numpy_for_answers, numpy_module, room
from ._numbers import as_numpy, is_one, is_row, items_of, real, whole
from .errors import WrongLengthError

__all__ = ["Shape", "aligned", "flat", "shape_of"]

Shape = tuple[int, ...]


def shape_of(numbers: Any) -> Shape:
    """Returns the shape of a number, a list or an array. A list has one dimension, even if its items are lists."""
    if is_one(numbers):
        return ()
    shape = getattr(numbers, "shape", None)
    if isinstance(shape, tuple):
        return tuple(shape)
    table = as_numpy(numbers)
    return (len(numbers),) if table is None else table.shape  # type: ignore[no-any-return]


def common_shape(shapes: Sequence[Shape]) -> Shape:
    """Returns the shape to which these shapes broadcast. Raises WrongLengthError if there is none."""
    most = max(map(len, shapes))
    found = []
    for sizes in zip(*((1,) * (most - len(it)) + it for it in shapes)):
        longer = set(sizes) - {1}
        if len(longer) > 1:
            text = " ".join(map(str, shapes))
            raise WrongLengthError(f"operands could not be broadcast together with shapes {text}")
        found.append(longer.pop() if longer else 1)
    return tuple(found)


def flat(numbers: Any) -> Any:
    """Returns the numbers of an array as a list in C order, and a list as it is."""
    if len(shape_of(numbers)) < 2:
        return numbers
    table = as_numpy(numbers)
    if table is not None:
        return table.ravel()
    view = memoryview(numbers)
    return memoryview(view.tobytes()).cast("B").cast(view.format)


def _stretched(numbers: Any, shape: Shape, row: bool = False, wholes: bool = False) -> Any:
    """Returns numbers that broadcast to ``shape`` as a list in C order, or as a list of rows."""
    own = shape_of(numbers)
    if own == shape and len(shape) == 1 + row:
        return numbers
    table = as_numpy(numbers)
    if table is None and len(shape) > 1 and not is_one(numbers):
        if own == shape and not row:
            return flat(numbers)
        numpy = numpy_for_answers()
        if numpy is None:
            raise TypeError(f"expected parameters of shape {shape}, because numpy can't be imported, got {own}")
        table = numpy.asarray(numbers)
    if table is not None:
        table = numpy_module().broadcast_to(table, shape)
        return table.reshape(prod(shape[:-1]), shape[-1]) if row else table.ravel()
    single, code = numbers if is_one(numbers) else next(iter(items_of(numbers))), SYMBOL if wholes else NUMBER
    stretched = room(code, prod(shape))
    try:
        stretched[:] = type(stretched)(code, (whole(single) if wholes else real(single),)) * len(stretched)
    except OverflowError:
        return [single] * len(stretched)
    return stretched


def aligned(
    core: int, given: Sequence[Any], symbols: Shape | None = None, wholes: bool = False
) -> tuple[tuple[Any, ...], Shape]:
    """Returns parameters as lists of one length, and the shape that they have in common.

    ``core`` is the number of dimensions of one symbol's parameter: 1 for rows. ``symbols`` is the shape of symbols that
    the parameters are for. With ``wholes`` the parameters are whole numbers. Lists that don't fit are returned as they are. The functions that take them say why.
    """
    if core:
        return _aligned_rows(given, symbols)
    shapes = [shape_of(it) for it in given]
    wanted = shapes if symbols is None else [symbols, *shapes]
    first = wanted[0]
    if len(first) < 2 and all(it == first for it in wanted):
        return tuple(given), first
    try:
        common = common_shape(wanted)
    except WrongLengthError:
        if max(map(len, wanted)) > 1:
            raise
        return tuple(given), first
    if symbols is not None and common != symbols:
        if len(common) > 1:
            raise WrongLengthError(f"expected symbols of shape {common}, got {symbols}")
        return tuple(given), symbols
    return tuple(_stretched(it, common, wholes=wholes) for it in given), common


def _aligned_rows(given: Sequence[Any], symbols: Shape | None) -> tuple[tuple[Any, ...], Shape]:
    """Does the same as ``aligned`` for rows."""
    tables = [as_numpy(it) for it in given]
    if all(it is None for it in tables):
        return _aligned_lists(given, symbols)
    tables = [numpy_module().asarray(it) if table is None else table for it, table in zip(given, tables)]
    shapes = [it.shape for it in tables]
    common = common_shape(shapes if symbols is None else [(*symbols, 1), *shapes])
    if symbols is not None and common[:-1] != symbols:
        raise WrongLengthError(f"expected symbols of shape {common[:-1]}, got {symbols}")
    if len(common) < 2:
        return tuple(tables), ()
    return tuple(_stretched(it, common, True) for it in tables), common[:-1]


def _aligned_lists(given: Sequence[Any], symbols: Shape | None) -> tuple[tuple[Any, ...], Shape]:
    """Does the same as ``aligned`` for lists of rows, and for lists that are a single row."""
    counts = [1 if is_one(it) or is_row(it) else len(it) for it in given]
    if symbols is None and all(map(is_row, given)):
        return tuple(given), ()
    most = max(counts, default=1) if symbols is None else prod(symbols)
    stretched = []
    for it, count in zip(given, counts):
        rows = [it] if is_row(it) else it
        stretched.append(list(rows) * most if count == 1 != most and not is_one(it) else rows)
    return tuple(stretched), (most,) if symbols is None else symbols
