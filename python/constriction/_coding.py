"""Encodes and decodes lists of symbols with a model, by the C functions of a coder."""

from __future__ import annotations

from collections.abc import Callable, Iterator, Sequence
from itertools import repeat
from math import prod
from typing import Any, NoReturn

from ._answers import Wanted, shape_counted, shifted
from ._buffers import ANSWER, SYMBOL, Numbers, Symbols, lent, listed, room
from ._numbers import as_numpy, count_of, is_one, is_whole, items_of, listed_of, sequence_of, whole
from ._places import places_of

from .errors import (
    ImpossibleSymbolError, Refusal, WrongLengthError, WrongWeightsError, impossible, wrong_weights,
)  # fmt: skip
from ._shapes import Shape, aligned, flat, shape_of
from ._sizes import Size
from .stream.model import Model
from .stream.model._base import Located, lists_named

__all__ = ["Call", "decoded", "encoded"]

#: A part of a list has at least this many symbols, and this many symbols for each weight. So a part stays in the
#: cache.
_SYMBOLS_AT_A_TIME, _WEIGHTS_AT_A_TIME = 1 << 16, 4
#: A C function of a coder. Its arguments are the part of the function's name for the kind of models, a state, the
#: number of symbols, and the arguments for models and symbols. It returns the state after the call.
Call = Callable[[str, Any, int, "tuple[Any, ...]"], Any]
#: Returns an equal state for an encode of so many symbols.
Ready = Callable[[Any, int], Any]


def _parts(count: int, weights: int) -> list[slice]:
    """Returns slices of a list. There is at least one slice, because a call also checks the weights."""
    size = max(_SYMBOLS_AT_A_TIME, _WEIGHTS_AT_A_TIME * weights)
    return [slice(start, min(start + size, count)) for start in range(0, max(count, 1), size)]


def model_wanted(model: Any, symbols: Any = None) -> NoReturn:
    """Raises TypeError, because ``model`` isn't a model."""
    if isinstance(symbols, Model):
        raise TypeError("expected the symbols and then the model, got the model first")
    raise TypeError(f"expected a model (see constriction.stream.model), got {type(model).__name__}")


def encoded(
    state: Any,
    size: Size,
    symbols: Symbols,
    model: Model,
    parameters: tuple[Any, ...],
    encode: Call,
    backwards: bool,
    ready: Ready = lambda state, count: state,
) -> Any:
    """Returns the state after an encode of the symbols.

    With ``backwards`` the last symbol is encoded first. The C functions get the state that ``ready`` returns.
    """
    if not isinstance(model, Model):
        model_wanted(model, symbols)
    model, one = model.at(size), is_one(symbols)
    parameters = tuple(it if is_one(it) else sequence_of(it) for it in parameters)
    if one and not model.core:
        parameters = tuple(map(_alone, parameters))
    if not one:
        symbols = sequence_of(symbols)
        if parameters:
            parameters = aligned(model.core, parameters, shape_of(symbols), model.has_wholes)[0]
        symbols = flat(symbols)
    try:
        return _encoded(state, symbols, model, parameters, encode, backwards, ready)
    except Refusal as refused:
        given = tuple([it] for it in parameters) if one else parameters
        raise _explained(refused, symbols, model, given) from None


def _alone(numbers: Any) -> Any:
    """Returns a single symbol's parameter: a number, or the number of a list of one."""
    if is_one(numbers):
        return numbers
    table = as_numpy(numbers)
    items = items_of(flat(numbers)) if table is None else table.ravel()
    if len(items) != 1:
        raise WrongLengthError(f"expected one of each parameter for one symbol, got {len(items)}")
    return next(iter(items))


def _encoded(
    state: Any, symbols: Symbols, model: Model, parameters: tuple[Any, ...], encode: Call, backwards: bool, ready: Ready
) -> Any:
    if parameters and model.has_rows:
        return _encoded_under_rows(state, symbols, model, parameters, encode, backwards, ready)
    located = model.located(parameters) if parameters else None
    if parameters and located is None:
        lefts, ps = model.intervals(symbols, parameters)
        return encode("_intervals", ready(state, len(ps)), len(ps), (*listed(lefts), *listed(ps)))
    weights = model.table() if located is None else ()
    places = places_of(symbols, model.first, narrow=located is None)
    if located is not None and len(places) != located.symbols:
        names = model.missing[0] if model.has_wholes else "sets of parameters"
        raise _other_lengths(len(places), located.symbols, names)
    try:
        state = ready(state, len(places))
        parts = _parts(len(places), len(weights) if located is None else located.costs)
        for part in reversed(parts) if backwards else parts:
            models, count = listed(weights) if located is None else located.lent(part), part.stop - part.start
            state = encode(
                places.form if located is None else located.form, state, count, (*models, places.lent(part), count)
            )
    finally:
        places.close()
    return state


def _other_lengths(symbols: int, others: int, names: str) -> WrongLengthError:
    return WrongLengthError(f"expected as many {names} as symbols, got {others} {names} and {symbols} symbols")


def _explained(refused: Refusal, symbols: Any, model: Model, given: tuple[Any, ...]) -> Refusal:
    """Returns an exception with more details: the symbol and its index, or the sum of the weights."""
    if isinstance(refused, ImpossibleSymbolError) and refused.symbol is None:
        for place, (symbol, row) in enumerate(zip(map(whole, listed_of(symbols)), _rows(model, given))):
            at = symbol - model.first
            if not 0 <= at < len(row) or not row[at]:
                return impossible(symbol, None if is_one(symbols) else place, model.first, len(row))
    if isinstance(refused, (WrongWeightsError, WrongLengthError)) and (not given or model.has_rows):
        return _explained_weights(refused, model, given)
    return model.explained(refused, given)


def _explained_weights(refused: Refusal, model: Model, given: tuple[Any, ...]) -> Refusal:
    """Returns an exception that states the sum of the first row of weights with a wrong sum."""
    if given and model.rows_form == "_counts":
        return refused
    for place, row in enumerate(_rows(model, given) if given else (model.table(),)):
        if not len(row):
            return type(refused)("expected at least one weight, got none" + (f" in row {place}" if given else ""))
        if sum(row) != model.words.total:
            text = wrong_weights(model.words.total)
            return WrongWeightsError(f"{text}, got a sum of {sum(row)}" + (f" in row {place}" if given else ""))
    return refused


def _rows(model: Model, given: tuple[Any, ...]) -> Iterator[Sequence[int]]:
    """Yields a row for each symbol, whose items are above 0 for the symbols of the model."""
    if not given:
        yield from repeat(model.table())
    elif model.has_rows:
        for weights, width, count in model.rows(given):
            if model.rows_form == "_counts":  # A symbol whose count is 0 has a weight too.
                yield from repeat(range(1, width + 1), count)
            else:
                yield from (weights[i * width : (i + 1) * width] for i in range(count))
    else:
        located = model.located(given)
        if located is not None:
            yield from located.rows()


def _encoded_under_rows(
    state: Any, symbols: Symbols, model: Model, given: tuple[Any, ...], encode: Call, backwards: bool, ready: Ready
) -> Any:
    """Returns the state after an encode of the symbols, each with its own row of weights."""
    places = places_of(symbols, model.first)
    parts, end = [], 0
    for weights, width, count in model.rows([[it] for it in given] if is_one(symbols) else given):
        parts.append((weights, width, slice(end, end + count)))
        end += count
    if len(places) != end:
        raise _other_lengths(len(places), end, f"rows of {model.missing[0]}")
    try:
        state = ready(state, len(places))
        for weights, width, part in reversed(parts) if backwards else parts:
            count = part.stop - part.start
            state = encode(model.rows_form, state, count, (*listed(weights), width, places.lent(part), count))
    finally:
        places.close()
    return state


def _in_parts(state: Any, symbols: Any, weights: int, decode: Callable[[Any, slice], Any]) -> tuple[Any, Any]:
    """Returns the state after decoding symbols in several parts to this list, and the list."""
    for part in _parts(len(symbols), weights):
        state = decode(state, part)
    return state, symbols


def _under_table(state: Any, model: Model, symbols: Any, decode: Call) -> tuple[Any, Any]:
    """Returns the state after decoding symbols to this list with the model's own table, and the list."""
    weights, kind = model.table(), {1: "_bytes", 2: "_shorts", 8: ""}[symbols.itemsize]

    def some(state: Any, part: slice) -> Any:
        count = part.stop - part.start
        return decode(kind, state, count, (*listed(weights), lent(symbols, part.start), count))

    return _in_parts(state, symbols, len(weights), some)


def _under_rows(state: Any, model: Model, given: tuple[Any, ...], decode: Call) -> tuple[Any, Numbers]:
    """Returns the state after decoding one symbol for each row of weights, and the symbols."""
    symbols = room(SYMBOL, 0)
    for weights, width, count in model.rows(given):
        some = room(SYMBOL, count)
        state = decode(model.rows_form, state, count, (*listed(weights), width, *listed(some)))
        symbols.extend(some)
    return state, symbols


def _under_each(
    state: Any, model: Model, given: tuple[Any, ...], decode: Call, quantile: Callable[[Any], int]
) -> tuple[Any, Numbers]:
    """Returns the state after decoding one symbol for each set of parameters, and the symbols."""
    sets = model.parameters(given)
    places, place = room(SYMBOL, len(sets)), room(SYMBOL, 1)
    for i, parameters in enumerate(sets):
        # Only the interval that contains the coder's next quantile matters. It is the middle one of three intervals.
        k, weights = model.around(quantile(state), parameters)
        state = decode("", state, 1, (*listed(weights), *listed(place)))
        places[i] = k + place[0] - 1
    return state, places


def _under_located(state: Any, located: Located, decode: Call, kind: Any) -> tuple[Any, Any]:
    """Returns the state after decoding one symbol for each location and scale, and the symbols."""
    symbols = room(SYMBOL, located.symbols, kind)  # Comes first: without memory for all symbols, none is decoded.

    def some(state: Any, part: slice) -> Any:
        count = part.stop - part.start
        return decode(located.form, state, count, (*located.lent(part), lent(symbols, part.start), count))

    return _in_parts(state, symbols, located.costs, some)


def _under_parameters(
    state: Any, model: Model, given: tuple[Any, ...], decode: Call, quantile: Callable[[Any], int], kind: Any
) -> tuple[Any, Any]:
    """Does the same as ``_under_each``, in the way in which the C functions take these parameters."""
    if model.has_rows:
        return _under_rows(state, model, given, decode)
    located = model.located(given)
    if located is None:
        return _under_each(state, model, given, decode, quantile)
    return _under_located(state, located, decode, kind)


def _counted(model: Model, rest: tuple[Any, ...], amt: Any) -> tuple[tuple[Any, ...], bool]:
    """Returns what a decode gets after the model, and whether this is a number of symbols or a shape.

    A model of a function may have parameters or none. A single whole number is then a number of symbols. For a model
    that takes no parameters, a tuple is a shape.
    """
    if amt is not None:
        if rest:
            raise TypeError("expected parameters or a number of symbols, got both")
        if model.missing:
            raise TypeError(f"expected {lists_named(model.missing)}, got a number of symbols")
        return (amt,), True
    if len(rest) != 1 or model.missing:
        return rest, False
    number = rest[0]
    if is_whole(number) or model.complete and isinstance(number, tuple):
        return rest, True
    if model.complete:
        raise TypeError(f"expected a number of symbols as a whole number, got {number!r}")
    return rest, False


def decoded(
    state: Any,
    size: Size,
    model: Model,
    rest: tuple[Any, ...],
    amt: Any,
    wanted: Wanted,
    decode: Call,
    quantile: Callable[[Any], int],
    most: Callable[[Any], int] | None = None,
) -> tuple[Any, Any]:
    """Returns the state after the next symbols, and the symbols: one, ``amt``, or one for each set of parameters.

    ``wanted`` says how the caller gets an array of symbols. ``quantile`` returns the quantile that selects the next
    symbol, a number below the sum of all weights. ``most`` returns a number of symbols. A decode of more symbols is
    refused.
    """
    if not isinstance(model, Model):
        model_wanted(model)
    model = model.at(size)
    rest, counted = _counted(model, rest, amt)
    given = rest
    shape: Shape = shape_counted(rest[0]) if counted else ()
    try:
        if not rest or counted:
            given, count = (), count_of(prod(shape)) if rest else 1
            if most is not None:
                count = min(count, most(state) + 1)  # Enough for the refusal, without memory for all symbols.
            wanted.check(shape)
            # Comes first: without memory for all symbols, none is decoded.
            symbols = room(wanted.code(model), count, ANSWER if shape else Numbers)
            state, places = _under_table(state, model, symbols, decode)
        else:
            lists = [it if is_one(it) else sequence_of(it) for it in rest]
            given, shape = aligned(model.core, lists, wholes=model.has_wholes)
            wanted.check(shape)
            if not shape and model.has_rows:
                given = tuple([it] for it in given)
            state, places = _under_parameters(state, model, given, decode, quantile, ANSWER if shape else Numbers)
    except (WrongWeightsError, WrongLengthError) as refused:
        own = not given or model.has_rows
        raise (_explained_weights(refused, model, given) if own else model.explained(refused, given)) from None
    symbols = shifted(places, model.first)
    return state, wanted.given(symbols, shape) if shape else int(symbols[0])
