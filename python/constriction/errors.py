"""The exceptions that calls raise if they refuse their arguments. The coder is then unchanged.

If there is no memory, a call raises the built-in :class:`MemoryError`.
"""

from __future__ import annotations

__all__ = [
    "Refusal",
    "ImpossibleSymbolError",
    "WrongWeightsError",
    "WrongIntervalError",
    "WrongLengthError",
    "NoSpaceError",
    "InvalidDataError",
    "OutOfDataError",
]


class Refusal(ValueError):
    """A call refused its arguments, and changed nothing. Each subclass is one reason."""


class ImpossibleSymbolError(Refusal, KeyError):
    """A model has no entry for a symbol. This class is also a :class:`KeyError`, as in the Rust crate's package.

    ``symbol`` is the first such symbol, and ``place`` is the symbol's index in the list. For a single symbol ``place``
    is None.
    """

    symbol: int | None = None
    place: int | None = None
    #: For ``AnsCoders``: the number of the coder. ``place`` is then the symbol's index in the coder's row.
    lane: int | None = None

    def __str__(self) -> str:
        return Exception.__str__(self)  # KeyError.__str__ would put the text in quotes.


class WrongWeightsError(Refusal):
    """Weights don't add up to 2^24, or to 2^12 for words of 16 bits.

    Or a Huffman tree has no weights, or the sum of its weights is too large.
    """


class WrongIntervalError(Refusal):
    """An interval is empty or ends past 2^24 (2^12 for words of 16 bits)."""


class WrongLengthError(Refusal):
    """A length or a position is past the end, or the lengths of two lists don't match."""


class NoSpaceError(Refusal):
    """A buffer is too short. This package makes its buffers long enough, so this exception is a bug in the package."""


class InvalidDataError(Refusal):
    """No coder has the words or the numbers of the state, or the words don't encode the symbols."""


class OutOfDataError(Refusal):
    """The words end before all symbols are coded."""


IMPOSSIBLE_SYMBOL = "Impossible symbol."
INVALID_FOR_MODEL = "Tried to decode from compressed data that is invalid for the employed entropy model."
ENDS_WITH_ZERO_WORD = (
    "Tried to decode from compressed data that ends with a zero word, which is invalid for an ANS coder."
)
NOT_ENOUGH_WORDS = "expected enough words, of which the last isn't 0, got too few words, or a last word of 0"
OUT_OF_COMPRESSED_DATA = "Out of compressed data."
OUT_OF_REMAINDERS = "Out of remainders information from previous decoding."
CODEWORD_ENDED = "The compressed data ended before the current codeword was complete."
INVALID_CODEWORD = "Invalid codeword for this codebook: Invalid Exp-Golomb codeword."
NO_WHOLE_WORDS = "expected a coder that holds a whole number of words, got one that doesn't"


def wrong_weights(total: int) -> str:
    """Returns the text for weights that don't have this sum."""
    return f"expected weights with a sum of {total}"


def no_such_position(most: int, position: int, unit: str = "words") -> WrongLengthError:
    """Returns the exception for a position that isn't between 0 and ``most``."""
    return WrongLengthError(f"expected a position between 0 and {most} {unit}, got {shown(position)}")


def shown(number: int) -> str:
    """Returns a whole number as text, or the number of its bits if these are more than 128."""
    bits = number.bit_length()
    return str(number) if bits <= 128 else f"a {'negative ' * (number < 0)}number of {bits} bits"


def impossible(symbol: int, place: int | None, first: int, count: int) -> ImpossibleSymbolError:
    """Returns the exception for a symbol. The model has the ``count`` symbols from ``first`` upwards."""
    where = "" if place is None else f" at place {place}"
    if 0 <= symbol - first < count:
        text = f"{IMPOSSIBLE_SYMBOL} Expected a symbol with a weight above 0, got {symbol}{where}."
    else:
        text = f"{IMPOSSIBLE_SYMBOL} Expected {first} .. {first + count - 1}, got {shown(symbol)}{where}."
    it = ImpossibleSymbolError(text)
    it.symbol, it.place = symbol, place
    return it


def impossible_in_lane(found: ImpossibleSymbolError, count: int) -> ImpossibleSymbolError:
    """Returns the exception for a symbol of many coders, each with a row of ``count`` symbols."""
    lane, place = divmod(found.place or 0, max(count, 1))
    it = ImpossibleSymbolError(str(found).replace(f" at place {found.place}.", f" at place {place} of coder {lane}."))
    it.symbol, it.place, it.lane = found.symbol, place, lane
    return it


_CLASSES: dict[int, tuple[type[Exception], str]] = {
    1: (ImpossibleSymbolError, IMPOSSIBLE_SYMBOL),
    2: (WrongWeightsError, "expected weights with the coder's sum, got others"),
    3: (WrongIntervalError, "expected an interval that isn't empty and is within the coder's sum, got another"),
    4: (WrongLengthError, "expected lists whose lengths fit each other, got others"),
    5: (NoSpaceError, "no space"),
    6: (MemoryError, "out of memory"),
    7: (InvalidDataError, INVALID_FOR_MODEL),
    8: (OutOfDataError, OUT_OF_COMPRESSED_DATA),
}


def refusal(code: int, texts: dict[int, str] | None = None) -> Exception:
    """Returns the exception for a result code that isn't 0. ``texts`` maps codes to the call's own texts."""
    kind, text = _CLASSES[code]
    return kind((texts or {}).get(code, text))
