"""Lists of numbers in memory that C functions read and write.

A C function only gets memory of this package, so no other code changes it during a call. The package asks for the
memory's address at each call, so no copy of a coder keeps an old address.
"""

from __future__ import annotations

import ctypes
import sys
from array import array
from collections.abc import Iterable, Sequence
from importlib import import_module
from typing import TYPE_CHECKING, Any, SupportsFloat, SupportsIndex, TypeVar, Union, overload

__all__ = [
    "ANSWER", "BYTE", "NUMBER", "OWN", "SHORT", "SYMBOL", "WORD", "Amount", "Answer", "Array", "Compressed", "List", "Numbers", "Parameter", "Real", "Reals", "Symbols",
    "answered", "answered_alone", "array_class", "copied_part", "lent", "listed", "numpy_for_answers", "numpy_module", "room", "seen_numpy",
]  # fmt: skip

#: A list of whole numbers, as words or symbols: a list, a tuple, an ``array.array``, a numpy array.
List = Union[Iterable[SupportsIndex], memoryview]
#: One symbol, or a list of them.
Symbols = Union[SupportsIndex, List]
#: One parameter of a model.
Real = Union[SupportsFloat, SupportsIndex]
#: A list of parameters.
Reals = Union[Iterable[Real], memoryview]
#: One parameter, a list with one for each symbol, or a row for each symbol.
Parameter = Union[Real, Reals, Iterable[Reals]]

#: Words, or the pair of words and a number of bits that ``get_compressed`` of a coder of codewords returns.
Compressed = Union[List, "tuple[List, SupportsIndex]"]

#: A number of symbols, or the shape of an array of them.
Amount = Union[SupportsIndex, "tuple[SupportsIndex, ...]"]

WORD, SYMBOL, NUMBER = "I", "q", "d"
#: Symbols of 8 and of 16 bits. Words and weights of 16 bits have the second typecode too.
BYTE, SHORT = "B", "H"
#: numpy's names of these types.
_KINDS = {WORD: "uint32", SYMBOL: "int64", NUMBER: "float64", BYTE: "uint8", SHORT: "uint16"}
#: Kinds of lists that ``room`` returns. For an answer this is a numpy array where numpy can be imported, and otherwise
#: ``Numbers``. Memory of a coder is a numpy array if the program has loaded numpy, and otherwise an ``array``.
ANSWER: Any = "an answer"
OWN: Any = "memory of a coder"
#: The memory of empty lists.
_NOWHERE = (ctypes.c_uint64 * 1)()
_Start = ctypes.c_char * 0
Held = TypeVar("Held", bound="array[Any]")


if TYPE_CHECKING:
    Array = array[Any]

    class Answer(Sequence[int]):
        """Words or symbols as a caller gets them: a numpy array, or an ``array.array`` where there is no numpy."""

        def tolist(self) -> list[int]:
            ...

        def tobytes(self) -> bytes:
            ...

        def __getitem__(self, place: Any) -> Any:
            ...

        def __len__(self) -> int:
            ...

        def __eq__(self, other: object) -> Any:
            ...

        def __setitem__(self, place: Any, value: Any) -> None:
            ...

        def __add__(self, other: Any) -> Any:
            ...

        def __sub__(self, other: Any) -> Any:
            ...

        def __mul__(self, other: Any) -> Any:
            ...

        def __buffer__(self, flags: int, /) -> memoryview:
            ...

        def __getattr__(self, name: str) -> Any:
            ...

else:
    Array = array
    Answer = "Answer"


class Numbers(Array):
    """An ``array.array`` that is also equal to lists and tuples of the same numbers.

    ``numpy.asarray`` reads it without a copy.
    """

    def __eq__(self, other: object) -> bool:
        if isinstance(other, (list, tuple)):
            return self.tolist() == list(other)
        return super().__eq__(other)

    def __ne__(self, other: object) -> bool:
        return not self == other

    __hash__ = None  # type: ignore[assignment]

    def __getitem__(self, place: Any) -> Any:
        found = super().__getitem__(place)
        return self._like(found) if isinstance(place, slice) else found

    def __add__(self, other: Any) -> Numbers:
        return self._like(super().__add__(other))

    def __mul__(self, times: Any) -> Numbers:
        return self._like(super().__mul__(times))

    __rmul__ = __mul__

    def __copy__(self) -> Numbers:
        return self._like(self)

    def __deepcopy__(self, memo: object) -> Numbers:
        return self._like(self)

    def _like(self, numbers: Array) -> Numbers:
        """Returns a copy of numbers as this class."""
        return Numbers(self.typecode, numbers)


def lent(memory: Any, start: int = 0) -> Any:
    """Returns the memory of a writable buffer from an item on, as an argument of a C function.

    The buffer doesn't move while the argument exists.
    """
    if start >= len(memory):
        return _NOWHERE
    return _Start.from_buffer(memory, start * memory.itemsize) if start else _Start.from_buffer(memory)


def listed(memory: Any) -> tuple[Any, int]:
    """Returns the memory as ``lent`` does, and the number of items."""
    return lent(memory), len(memory)


#: Zeros that ``room`` copies, and the number of bytes of an item.
_ZEROS = bytes(1 << 16)
_SIZES = {code: array(code).itemsize for code in "BHIQqd"}


@overload
def room(code: str, count: int) -> Numbers:
    ...


@overload
def room(code: str, count: int, kind: type[Held]) -> Held:
    ...


def room(code: str, count: int, kind: Any = Numbers) -> Any:
    """Returns a list of ``count`` zeros. All lists that C functions write come from this function.

    An ``array`` has quicker indexing than ``Numbers``, and no caller gets one. A numpy array has any numbers, because a C
    function fills it.
    """
    if count < 0:
        raise ValueError(f"expected a count of at least 0, got {count}")
    if kind is ANSWER or kind is OWN:
        numpy = numpy_for_answers() if kind is ANSWER else numpy_module()
        if numpy is not None:
            return numpy.empty(count, dtype=_KINDS[code])
        kind = Numbers if kind is ANSWER else array
    at_a_time = len(_ZEROS) // _SIZES[code]
    if count <= at_a_time:
        return kind(code, _ZEROS[: count * _SIZES[code]])
    numbers = kind(code, _ZEROS)
    numbers *= count // at_a_time
    numbers.frombytes(_ZEROS[: count % at_a_time * _SIZES[code]])
    return numbers


def copied_part(memory: Any, start: int, end: int) -> Any:
    """Returns a copy of a part of a list."""
    return memory[start:end] if isinstance(memory, array) else memory[start:end].copy()


#: numpy after its import, its class of arrays, and its type of symbols, or None before it was seen so.
_numpy: Any = None
array_class: Any = None
_int64: Any = None


def numpy_module() -> Any:
    """Returns numpy if the program has loaded it, and not while a thread imports it. Otherwise returns None."""
    global _numpy, array_class, _int64
    found = sys.modules.get("numpy")
    if found is None or found is _numpy:
        return found
    if getattr(getattr(found, "__spec__", None), "_initializing", False):
        return None
    array_class, _int64 = getattr(found, "ndarray", None), getattr(found, "int64", None)
    _numpy = found
    return found


def seen_numpy() -> Any:
    """Returns the numpy whose arrays are of ``array_class``."""
    return _numpy


_is_numpy_sought = False


def numpy_for_answers() -> Any:
    """Returns numpy, which the first call imports if it can be imported. Otherwise returns None.

    So answers are of one kind in a program, whatever else the program imports. A call waits while a thread imports numpy.
    """
    global _is_numpy_sought
    if not _is_numpy_sought:
        try:
            import_module("numpy")
        except ImportError:
            pass
        _is_numpy_sought = True
    return numpy_module()


def answered_alone(symbol: int, given: Any) -> Any:
    """Returns a list of one symbol as a caller gets it, for the parameter ``given``, which is a list too."""
    numpy = _numpy if type(given) is array_class else numpy_for_answers()
    if numpy is None:
        return Numbers(SYMBOL, (symbol,))
    found = numpy.empty(1, _int64)
    found[0] = symbol
    return found


def answered(numbers: Any) -> Any:
    """Returns numbers as a caller gets them.

    If numpy can be imported, these are a numpy array over the same memory. Otherwise they are ``numbers``.
    """
    numpy = numpy_for_answers()
    if numpy is None or not isinstance(numbers, array):
        return numbers
    kind = _KINDS[numbers.typecode]
    return numpy.frombuffer(numbers, dtype=kind) if len(numbers) else numpy.empty(0, dtype=kind)
