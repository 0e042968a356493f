"""The shared object, and its functions with their types."""

from __future__ import annotations

import ctypes
import os
from collections.abc import Callable
from ctypes import POINTER, Structure, c_int32, c_size_t, c_uint16, c_uint32, c_uint64, c_void_p
from functools import cache, partial
from pathlib import Path
from typing import Any

from ._version import VERSION
from .errors import refusal

__all__ = [
    "PATH", "ChainHeads", "RangeDecoderState", "RangeEncoderState", "SmallChainHeads", "SmallRangeDecoderState", "SmallRangeEncoderState",
    "bound", "call", "plain_function", "short_function",
]  # fmt: skip


class RangeEncoderState(Structure):
    """The numbers of a range encoder."""

    _fields_ = [("lower", c_uint64), ("range", c_uint64), ("held", c_size_t), ("first", c_uint32)]


class RangeDecoderState(Structure):
    """The numbers of a range decoder."""

    _fields_ = [("lower", c_uint64), ("range", c_uint64), ("point", c_uint64), ("pos", c_size_t)]


class ChainHeads(Structure):
    """The two heads of a chain coder."""

    _fields_ = [("remainders", c_uint64), ("compressed", c_uint32)]


class SmallRangeEncoderState(Structure):
    """The numbers of a range encoder with words of 16 bits."""

    _fields_ = [("lower", c_uint32), ("range", c_uint32), ("held", c_size_t), ("first", c_uint16)]


class SmallRangeDecoderState(Structure):
    """The numbers of a range decoder with words of 16 bits."""

    _fields_ = [("lower", c_uint32), ("range", c_uint32), ("point", c_uint32), ("pos", c_size_t)]


class SmallChainHeads(Structure):
    """The two heads of a chain coder with words of 16 bits."""

    _fields_ = [("remainders", c_uint32), ("compressed", c_uint16)]


def _path() -> Path:
    """Returns the path of the shared object.

    This is the path that CONSTRICTION_LIBRARY names, relative to the current folder. Otherwise the file is in this
    package, or else in the repository's folder build/.
    """
    said = os.environ.get("CONSTRICTION_LIBRARY")
    if said:
        return Path(said).absolute()
    here = Path(__file__).resolve().parent
    own = here / "libconstriction.so"
    return own if own.exists() else here.parents[1] / "build" / "libconstriction.so"


#: The path of the shared object.
PATH = _path()


def _load() -> ctypes.CDLL:
    """Loads the shared object by its absolute path, so that it is never a file of the system.

    Calls release the interpreter's lock.
    """
    if not PATH.is_file():
        raise ImportError(
            f"expected the library at {PATH}, got no file: run tools/library, or set CONSTRICTION_LIBRARY to its path"
        )
    library = ctypes.CDLL(str(PATH))
    ask = getattr(library, "constriction_version", None)
    found = f"version {_version(ask())}" if ask else "no version"
    if found != f"version {VERSION}":
        raise ImportError(f"expected a library of version {VERSION}, as this package, got {found} at {PATH}")
    return library


def _version(number: int) -> str:
    """Returns the text of a version from its number: 10000 times the first part, 100 times the second, and the third."""
    return f"{number // 10000}.{number // 100 % 100}.{number % 100}"


_size, _list = c_size_t, c_void_p
_length, _needed = POINTER(c_size_t), POINTER(c_size_t)
_buffer = [_list, _size, _length]
_table, _rows, _pairs = [_list, _size], [_list, _size, _size], [_list, _size, _list, _size]
_counted = [_list, _size, _size]
_indexed = [_list, _size, _size, _list, _size]
_located = [c_uint32, c_int32, c_int32, _list, _size, _list, _size]
_mixed = [c_uint32, c_int32, c_int32, _size, _list, _size, _list, _size, _list, _size]
_items = [_list, _size]
_lanes = [_list, _size, _list, _size, _list, _size]
# What differs between functions of the two sizes stands in the table by its name.
_number, _head, _encoder, _decoder, _heads = "number", "head", "encoder", "decoder", "heads"
#: The types of these in functions for words of 32 bits, and for words of 16 bits.
_large: dict[Any, Any] = {
    _number: c_uint64, _head: POINTER(c_uint64), _encoder: POINTER(RangeEncoderState), _decoder: POINTER(RangeDecoderState),
    _heads: POINTER(ChainHeads),
}  # fmt: skip
_small: dict[Any, Any] = {
    _number: c_uint32, _head: POINTER(c_uint32), _encoder: POINTER(SmallRangeEncoderState), _decoder: POINTER(SmallRangeDecoderState),
    _heads: POINTER(SmallChainHeads),
}  # fmt: skip

_PARAMETERS: dict[str, list[Any]] = {
    "ans_encode_reverse": [_head, *_buffer, *_table, *_items, _needed],
    "ans_encode_bytes_reverse": [_head, *_buffer, *_table, *_items, _needed],
    "ans_encode_shorts_reverse": [_head, *_buffer, *_table, *_items, _needed],
    "ans_encode_each_reverse": [_head, *_buffer, *_rows, *_items, _needed],
    "ans_encode_counts_reverse": [_head, *_buffer, *_counted, *_items, _needed],
    "ans_encode_intervals_reverse": [_head, *_buffer, *_pairs, _needed],
    "ans_encode_quantized_reverse": [_head, *_buffer, *_located, *_items, _needed],
    "ans_encode_mixture_reverse": [_head, *_buffer, *_mixed, *_items, _needed],
    "ans_encode_indexed_reverse": [_head, *_buffer, *_indexed, *_items, _needed],
    "ans_decode": [_head, *_buffer, *_table, *_items],
    "ans_decode_bytes": [_head, *_buffer, *_table, *_items],
    "ans_decode_shorts": [_head, *_buffer, *_table, *_items],
    "ans_decode_each": [_head, *_buffer, *_rows, *_items],
    "ans_decode_counts": [_head, *_buffer, *_counted, *_items],
    "ans_decode_quantized": [_head, *_buffer, *_located, *_items],
    "ans_decode_mixture": [_head, *_buffer, *_mixed, *_items],
    "ans_decode_indexed": [_head, *_buffer, *_indexed, *_items],
    "ans_lanes_encode_reverse": [*_lanes, *_table, *_items, _needed],
    "ans_lanes_encode_each_reverse": [*_lanes, *_rows, *_items, _needed],
    "ans_lanes_encode_counts_reverse": [*_lanes, *_counted, *_items, _needed],
    "ans_lanes_encode_intervals_reverse": [*_lanes, *_pairs, _needed],
    "ans_lanes_encode_quantized_reverse": [*_lanes, *_located, *_items, _needed],
    "ans_lanes_encode_mixture_reverse": [*_lanes, *_mixed, *_items, _needed],
    "ans_lanes_decode": [*_lanes, *_table, *_items],
    "ans_lanes_decode_each": [*_lanes, *_rows, *_items],
    "ans_lanes_decode_counts": [*_lanes, *_counted, *_items],
    "ans_lanes_decode_quantized": [*_lanes, *_located, *_items],
    "ans_lanes_decode_mixture": [*_lanes, *_mixed, *_items],
    "ans_from_compressed": [*_buffer, _head],
    "ans_into_compressed": [_number, *_buffer, _needed],
    "ans_from_binary": [*_buffer, _head],
    "ans_into_binary": [_number, *_buffer, _needed],
    "range_encoder": [_encoder],
    "range_encode": [_encoder, *_buffer, *_table, *_items, _needed],
    "range_encode_bytes": [_encoder, *_buffer, *_table, *_items, _needed],
    "range_encode_shorts": [_encoder, *_buffer, *_table, *_items, _needed],
    "range_encode_each": [_encoder, *_buffer, *_rows, *_items, _needed],
    "range_encode_counts": [_encoder, *_buffer, *_counted, *_items, _needed],
    "range_encode_intervals": [_encoder, *_buffer, *_pairs, _needed],
    "range_encode_quantized": [_encoder, *_buffer, *_located, *_items, _needed],
    "range_encode_mixture": [_encoder, *_buffer, *_mixed, *_items, _needed],
    "range_encode_indexed": [_encoder, *_buffer, *_indexed, *_items, _needed],
    "range_into_compressed": [_encoder, *_buffer, _needed],
    "range_into_self_delimited": [_encoder, *_buffer, _needed],
    "range_from_compressed": [*_items, _decoder],
    "range_decode": [_decoder, *_items, *_table, *_items],
    "range_decode_bytes": [_decoder, *_items, *_table, *_items],
    "range_decode_shorts": [_decoder, *_items, *_table, *_items],
    "range_decode_each": [_decoder, *_items, *_rows, *_items],
    "range_decode_counts": [_decoder, *_items, *_counted, *_items],
    "range_decode_quantized": [_decoder, *_items, *_located, *_items],
    "range_decode_mixture": [_decoder, *_items, *_mixed, *_items],
    "range_decode_indexed": [_decoder, *_items, *_indexed, *_items],
    "range_seek": [_decoder, *_items, _size, _number, _number],
    "range_maybe_exhausted": [_decoder, *_items, POINTER(c_uint32)],
    "store_build": [*_buffer, *_items, *_items, *_items, *_table, *_items, *_items, _needed],
    "store_chunk": [*_items, _size, _number, _number, *_table, *_items],
    "chain_from_compressed": [*_buffer, _heads],
    "chain_from_binary": [*_buffer, _heads],
    "chain_from_remainders": [*_buffer, _heads],
    "chain_decode": [_heads, *_buffer, *_buffer, *_table, *_items, _needed],
    "chain_decode_bytes": [_heads, *_buffer, *_buffer, *_table, *_items, _needed],
    "chain_decode_shorts": [_heads, *_buffer, *_buffer, *_table, *_items, _needed],
    "chain_decode_each": [_heads, *_buffer, *_buffer, *_rows, *_items, _needed],
    "chain_decode_counts": [_heads, *_buffer, *_buffer, *_counted, *_items, _needed],
    "chain_decode_quantized": [_heads, *_buffer, *_buffer, *_located, *_items, _needed],
    "chain_decode_mixture": [_heads, *_buffer, *_buffer, *_mixed, *_items, _needed],
    "chain_decode_indexed": [_heads, *_buffer, *_buffer, *_indexed, *_items, _needed],
    "chain_encode_reverse": [_heads, *_buffer, *_buffer, *_table, *_items, _needed],
    "chain_encode_bytes_reverse": [_heads, *_buffer, *_buffer, *_table, *_items, _needed],
    "chain_encode_shorts_reverse": [_heads, *_buffer, *_buffer, *_table, *_items, _needed],
    "chain_encode_each_reverse": [_heads, *_buffer, *_buffer, *_rows, *_items, _needed],
    "chain_encode_counts_reverse": [_heads, *_buffer, *_buffer, *_counted, *_items, _needed],
    "chain_encode_intervals_reverse": [_heads, *_buffer, *_buffer, *_pairs, _needed],
    "chain_encode_quantized_reverse": [_heads, *_buffer, *_buffer, *_located, *_items, _needed],
    "chain_encode_mixture_reverse": [_heads, *_buffer, *_buffer, *_mixed, *_items, _needed],
    "chain_encode_indexed_reverse": [_heads, *_buffer, *_buffer, *_indexed, *_items, _needed],
    "chain_into_compressed": [_heads, *_buffer, _needed],
    "chain_into_binary": [_heads, *_buffer, _needed],
    "chain_into_remainders": [_heads, *_buffer, _needed],
    "quantized_intervals": [*_located, *_items, *_items, *_items],
    "weights_of_counts": [*_items, *_items],
    "weights_of_floats": [*_items, *_items],
    "counts_of_floats": [*_items, _size, *_items],
    "huffman_encode_queue": [*_table, *_items, *_buffer, _needed],
    "huffman_encode_stack": [*_table, *_items, *_buffer, _needed],
    "huffman_decode_queue": [*_table, *_items, *_items],
    "huffman_decode_stack": [*_table, *_items, *_items],
    "exp_golomb_encode_queue": [*_items, *_buffer, _needed],
    "exp_golomb_encode_stack": [*_items, *_buffer, _needed],
    "exp_golomb_decode_queue": [*_items, *_items],
    "exp_golomb_decode_stack": [*_items, *_items],
}


_LIBRARY = _load()


def _functions() -> dict[str, Any]:
    functions = {}
    for name, parameters in _PARAMETERS.items():
        for end, types in (("u32", _large), ("u16", _small)):
            function = getattr(_LIBRARY, f"constriction_{name}_{end}", None)
            if function is None:
                continue  # The library has another version. A call raises an exception.
            function.argtypes, function.restype = [types.get(it, it) for it in parameters], c_uint32
            functions[f"{name}_{end}"] = function
    return functions


_FUNCTIONS = _functions()


def plain_function(name: str, library: ctypes.CDLL = _LIBRARY) -> Any:
    """Returns a C function whose arguments have to be instances of its types. This saves a conversion of each argument.

    If the library has no such function, the result is a function that does nothing and returns an error.
    """
    if name not in _FUNCTIONS:
        return lambda *arguments: 1
    function = library[
        f"constriction_{name}"
    ]  # An object of its own, without types of arguments. An attribute has them.
    function.restype = c_uint32
    return function


#: The same shared object. Calls of its functions hold the interpreter's lock.
_HELD = ctypes.PyDLL(str(PATH), handle=_LIBRARY._handle)


@cache
def short_function(name: str) -> Any:
    """Does the same as ``plain_function``, for calls so short that they hold the interpreter's lock."""
    return plain_function(name, _HELD)


@cache
def bound(name: str) -> Callable[..., None]:
    """Returns a function that does the same as ``call`` with this name, in fewer steps."""
    if name not in _FUNCTIONS:
        return partial(call, name)
    function = _FUNCTIONS[name]

    def called(*arguments: Any) -> None:
        code = function(*arguments)
        if code:
            raise refusal(code)

    return called


def call(name: str, *arguments: Any, texts: dict[int, str] | None = None) -> None:
    """Calls the C function ``name``, and raises the exception of its result.

    ``texts`` maps result codes to texts that replace the usual ones.
    """
    function = _FUNCTIONS.get(name)
    if function is None:
        raise NotImplementedError(f"expected the library of this version, got {PATH} without constriction_{name}")
    code = function(*arguments)
    if code:
        raise refusal(code, texts)
