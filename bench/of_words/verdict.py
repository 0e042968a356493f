"""The result of a case, and lists in the form of the Rust crate's program."""

from __future__ import annotations

from collections.abc import Callable
from typing import Any

from library import Refused

#: The differences of docs/DIFFERENCES.md that a case can have.
INTO_BINARY = "`AnsCoder::into_binary` drops zero words at the top"
CLEAR = "`RangeEncoder::clear` keeps the pending words"
STACK_END = "`StackCoder::from_compressed` takes the lowest set bit of the last word as the end"
END_OF_BITS = "`ExpGolomb` returns `InvalidCodeword` if the bits end"
NAMED = (INTO_BINARY, CLEAR, STACK_END, END_OF_BITS)


class Verdict:
    """The differences of a case, and the named differences that it has."""

    def __init__(self) -> None:
        self.differences: list[str] = []
        self.named: set[str] = set()
        self.requests: list[str] = []

    def same(self, what: str, ours: str, theirs: str, named: str = "", instead: str = "") -> None:
        """Compares two answers. Theirs may also be `instead`, which is the named difference."""
        if ours == theirs:
            return
        if named and theirs == instead:
            self.named.add(named)
        else:
            self.differences.append(f"{what}: ours {ours}, theirs {theirs}")


def text(numbers: list[int]) -> str:
    """Returns a list as a field."""
    return ",".join(map(str, numbers)) or "-"


def texts(tables: list[list[int]]) -> str:
    """Returns tables as a field."""
    return ";".join(map(text, tables))


def numbers(field: str) -> list[int]:
    """Returns the list of a field."""
    return [] if field == "-" else list(map(int, field.split(",")))


def part(tables: list[list[int]], start: int, stop: int) -> list[list[int]]:
    """Returns the tables of these symbols, at least one. One table for all symbols stays."""
    return tables if len(tables) == 1 else tables[start:stop] or tables[:1]


def attempt(call: Callable[[], str]) -> str:
    """Returns the call's answer, or the reason of its refusal."""
    try:
        return call()
    except Refused as refused:
        return str(refused.args[0])


def longest(decode: Callable[[int], Any], count: int) -> tuple[int, Any, str]:
    """Returns how many symbols up to `count` can be decoded, the answer for them, and how decoding ended.

    A call decodes all symbols or none, so a search finds the number. It is -1 if decoding no symbols fails too.
    """
    try:
        return count, decode(count), "done"
    except Refused as refused:
        end = str(refused.args[0])
    answer, least, most = None, -1, count - 1
    while least < most:
        middle = (least + most + 1) // 2
        try:
            answer, least = decode(middle), middle
        except Refused as refused:
            end, most = str(refused.args[0]), middle - 1
    return least, answer, end
