"""Models in whole numbers by their definitions (docs/MODELS.md), and floats as whole numbers by exact fractions.

The values of the distributions follow from their formulas, to 100 digits. This file doesn't use the library.
"""

from __future__ import annotations

import sys
from collections.abc import Iterable
from fractions import Fraction
from functools import lru_cache
from itertools import accumulate
from pathlib import Path

sys.path.insert(0, str(Path(__file__).resolve().parents[2] / "tools"))
import distributions  # noqa: E402

ALL, UNIT = 1 << 32, 1 << 16
#: The names of the families of distributions, in the order of their numbers in C, and two of them.
FAMILIES: tuple[str, ...] = tuple(distributions.FAMILIES)
GAUSSIAN, LOGISTIC = "gaussian", "logistic"


def type_of(family: str) -> str:
    """Returns the name of the family's type in Rattle, which follows `Quantized` in the name of the Python class."""
    name: str = distributions.FAMILIES[family].type
    return name


def scale_name(family: str) -> str:
    """Returns the name of the family's scale in Python."""
    name: str = distributions.FAMILIES[family].parameter
    return name


@lru_cache(maxsize=None)
def values(family: str) -> list[int]:
    """Returns the part of 2^32 below each of 2049 places of the standard distribution."""
    return distributions.entries(family)


def below(family: str, location: int, scale: int, place: int) -> int:
    """Returns the part of 2^32 below a place. Location, scale and place are in units of 2^-16."""
    table, width = values(family), 2 * distributions.REACH[family]
    far = place - location + width * scale // 2
    if far < 0:
        return 0
    if far >= width * scale:
        return ALL
    step, part = divmod(far * (2**63 // width // scale) // 2**36, UNIT)
    return table[step] + (table[step + 1] - table[step]) * part // UNIT


def mixed(family: str, components: Iterable[tuple[int, int, int]], place: int) -> int:
    """Returns the same for a mixture of components (weight, location, scale): their weighted mean, rounded once."""
    listed = list(components)
    total = sum(weight for weight, _, _ in listed)
    return sum(weight * below(family, location, scale, place) for weight, location, scale in listed) // total


def starts(family: str, location: int, scale: int, least: int, count: int, precision: int = 24) -> list[int]:
    """Returns the start of each symbol's interval, beginning with the least symbol, and the end of the last one."""
    halves = [(least + k) * UNIT - UNIT // 2 for k in range(1, count)]
    parts = [0, *(below(family, location, scale, place) for place in halves), ALL]
    return [(2**precision - count) * part // ALL + k for k, part in enumerate(parts)]


def table(family: str, location: int, scale: int, least: int, count: int, precision: int = 24) -> list[int]:
    """Returns the weights of the symbols, beginning with the least one."""
    found = starts(family, location, scale, least, count, precision)
    return [b - a for a, b in zip(found, found[1:])]


def mixture(
    family: str, shares: list[int], locations: list[int], scales: list[int], least: int, count: int, precision: int = 24
) -> list[int]:
    """Returns the weights of the symbols under a mixture, whose function is rounded down once."""
    components = list(zip(shares, locations, scales))
    parts = [0, *(mixed(family, components, (least + k) * UNIT - UNIT // 2) for k in range(1, count))]
    ends = [(2**precision - count) * part // ALL + k for k, part in enumerate([*parts, ALL])]
    return [b - a for a, b in zip(ends, ends[1:])]


def location_of(mean: float) -> int:
    """Returns the nearest whole number of units, ties to even."""
    return round(Fraction(mean) * UNIT)


def scale_of(deviation: float) -> int:
    """Returns the same for a scale, which is at least 1 and at most 2^32 - 1."""
    return min(max(location_of(deviation), 1), ALL - 1)


def table_of(family: str, mean: float, deviation: float, least: int, greatest: int) -> list[int]:
    """Returns the weights of a distribution whose parameters are floats."""
    count = greatest - least + 1
    return table(family, location_of(mean), scale_of(deviation), least, count) if count > 1 else [1 << 24]


def weights(counts: list[int], precision: int = 24) -> list[int]:
    """Returns weights in proportion to counts. Shares below 1 are raised to 1, in rounds; the others share the rest."""
    raised: set[int] = set()
    while True:
        mass, rest = 2**precision - len(raised), sum(count for k, count in enumerate(counts) if k not in raised)
        low = {k for k, count in enumerate(counts) if count and k not in raised and count * mass < rest}
        if not low:
            break
        raised |= low
    found = [1 if k in raised else count * mass // rest for k, count in enumerate(counts)]
    others = [k for k in range(len(counts)) if k not in raised]
    for k in sorted(others, key=lambda k: (-(counts[k] * mass % rest), k))[: 2**precision - sum(found)]:
        found[k] += 1
    return found


def counts(numbers: Iterable[float]) -> list[int]:
    """The counts that floats stand for, by exact fractions."""
    exact, unit = [Fraction(it) for it in numbers], Fraction(1)
    greatest = max(exact)
    while greatest * unit >= 2**62:
        unit /= 2
    while greatest * unit < 2**61:
        unit *= 2
    return [max(round(it * unit), 1) for it in exact]


def quick_counts(numbers: Iterable[float]) -> list[int]:
    """The counts that probabilities stand for with ``perfect=False``, by exact fractions."""
    given = list(numbers)
    if all(isinstance(it, int) for it in given) and max(given) < 2**32 and sum(given) < 2**40:
        return [int(it) for it in given]
    exact, unit = [Fraction(it) for it in given], Fraction(1)
    greatest = max(exact)
    while greatest * unit >= 2**31:
        unit /= 2
    while greatest * unit < 2**30:
        unit *= 2
    counts = [round(it * unit) for it in exact]
    total = Fraction(sum(counts))
    if total < 2**40:
        return counts
    while total >= 2**39:
        total, unit = total / 2, unit / 2
    return [round(it * unit) for it in exact]


def quick_weights(numbers: Iterable[float], precision: int = 24) -> list[int]:
    """The weights that probabilities stand for with ``perfect=False``."""
    return weights_of_row(quick_counts(numbers), precision)


def weights_of_row(counts: list[int], precision: int = 24) -> list[int]:
    """Returns the weights of a row of counts."""
    starts = starts_of_counts(counts, precision)
    return [end - start for start, end in zip(starts, starts[1:])]


def starts_of_counts(counts: list[int], precision: int = 24) -> list[int]:
    """Where the symbols of a row of counts begin, and where the last one ends: each symbol has one quantile, and the
    counts share the others, as exact fractions rounded down."""
    spare, total = 2**precision - len(counts), sum(counts)
    return [int(Fraction(before, total) * spare) + k for k, before in enumerate(accumulate(counts, initial=0))]


def weights_of(probabilities: Iterable[float]) -> list[int]:
    """Returns the weights of probabilities."""
    exact = [Fraction(it) for it in probabilities]
    above = Fraction(1)
    while above <= max(exact):
        above *= 2
    while above > 2 * max(exact):
        above /= 2
    return weights([max(round(it / above * 2**62), 1) for it in exact])
