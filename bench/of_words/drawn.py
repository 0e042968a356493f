"""Random tables, symbols and words. Border cases of the coders are frequent."""

from __future__ import annotations

import random


def count(dice: random.Random) -> int:
    """Returns a number of symbols, mostly a small one."""
    return dice.choice((0, 1, 2, 3, dice.randrange(12), dice.randrange(12), dice.randrange(40)))


def end(dice: random.Random, precision: int) -> int:
    """Returns the end of an interval."""
    whole = 1 << precision
    return dice.choice((0, 1, 2, whole // 2, 1 << dice.randrange(precision), whole - 1, dice.randrange(whole + 1)))


def weights(dice: random.Random, kinds: int, precision: int) -> list[int]:
    """Returns weights that add up to two to the precision. Some are 0."""
    whole = 1 << precision
    ends = sorted(end(dice, precision) for _ in range(kinds - 1))
    return [b - a for a, b in zip([0, *ends], [*ends, whole])]


def tables(dice: random.Random, many: int, precision: int) -> list[list[int]]:
    """Returns a table for each of `many` symbols, all with the same number of weights, or one table for all."""
    kinds = dice.choice((1, 2, 2, 3, 3, 4, 5, dice.randrange(1, 20)))
    each = many if many > 1 and dice.randrange(2) else 1
    return [weights(dice, kinds, precision) for _ in range(each)]


def symbols(dice: random.Random, under: list[list[int]], many: int) -> list[int]:
    """Returns a symbol for each table. In one case of ten, one symbol may be impossible."""
    known = [[i for i, weight in enumerate(table) if weight] for table in under]
    drawn = [dice.choice(known[i % len(known)]) for i in range(many)]
    if drawn and dice.randrange(10) == 0:
        drawn[dice.randrange(many)] = dice.randrange(len(under[0]) + 1)
    return drawn


def behind_unknown(under: list[list[int]], symbols: list[int]) -> int:
    """Returns the index after the last impossible symbol, or 0."""
    for i in reversed(range(len(symbols))):
        table = under[i % len(under)]
        if symbols[i] >= len(table) or not table[symbols[i]]:
            return i + 1
    return 0


def held(dice: random.Random, many: int, bits: int, precision: int) -> tuple[list[list[int]], list[int]]:
    """Returns tables and symbols for which a range encoder holds words back.

    Most intervals contain a number whose lower digits are zeros, the point. Later symbols decide on which side of the
    point the final interval is, and so whether the words before get a carry.
    """
    whole, under = 1 << precision, []
    start, length, point = 0, (1 << 2 * bits) - 1, dice.getrandbits(bits) << bits
    for _ in range(many):
        unit = length >> precision
        quantile = (point - start) // unit
        left_behind = dice.randrange(6) == 0 or not 0 <= quantile < whole
        if left_behind:
            quantile = dice.randrange(whole)
        left = max(quantile - dice.randrange(3), 0)
        weight = min(quantile + 1 - left + dice.randrange(3), whole - left)
        under.append([left, weight, whole - left - weight])
        start, length = start + unit * left, unit * weight
        if length >> bits == 0:
            start, length, point = start << bits, length << bits, point << bits
        if left_behind:
            point = start + length >> bits << bits
    return under or [[0, whole, 0]], [1] * many


def word(dice: random.Random, bits: int) -> int:
    """Returns a word: a random one, or one with no bit, one bit or all bits set."""
    return dice.choice((dice.getrandbits(bits),) * 3 + (0, 1, (1 << bits) - 1, 1 << dice.randrange(bits)))


def words(dice: random.Random, bits: int, many: int) -> list[int]:
    """Returns `many` words. In a third of the cases all are random."""
    if dice.randrange(3) == 0:
        return [dice.getrandbits(bits) for _ in range(many)]
    return [word(dice, bits) for _ in range(many)]


def number(dice: random.Random, bits: int) -> int:
    """Returns a number of at most `bits` bits, often a small one or the greatest."""
    return dice.choice((dice.getrandbits(dice.randrange(bits + 1)), dice.getrandbits(3), (1 << bits) - 1))


def tree(dice: random.Random) -> list[int]:
    """Returns weights of a Huffman tree: large ones, small ones with many equal ones, or those of a deep tree."""
    kinds = dice.choice((1, 2, 3, dice.randrange(1, 12), dice.randrange(1, 60)))
    form = dice.randrange(3)
    if form == 0:
        return [dice.randrange(1 << 26) for _ in range(kinds)]
    if form == 1:
        return [dice.randrange(4) for _ in range(kinds)]
    deep = [1 << min(i, 24) for i in range(kinds)]
    dice.shuffle(deep)
    return deep
