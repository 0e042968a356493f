#!/usr/bin/env python3
"""Draws chain.svg beside this file: which bits of a word are the quantiles of two decodes of a chain coder, where these
lie in the symbols' intervals, and how the number of the remainders takes in what the symbols don't tell. The numbers
are those of docs/CHAIN.md, computed here from the definition of the walk."""

import os

WORD_BITS, PRECISION = 8, 4
WORD, REMAINDER, WEIGHTS = 171, 18, [5, 11]
DECODES, TABLE = ["#f6c6cb", "#cde8d0"], ["#cfe3f7", "#fbe3b5"]
CELL, HIGH, MARGIN = 44, 36, 24


def text(x, y, words, size=13, anchor="middle", weight="normal"):
    return f'<text x="{x:g}" y="{y:g}" font-size="{size}" text-anchor="{anchor}" font-weight="{weight}">{words}</text>'


def box(x, y, width, fill):
    return f'<rect x="{x:g}" y="{y:g}" width="{width:g}" height="{HIGH}" fill="{fill}" stroke="#555"/>'


def quantiles():
    """The two quantiles of the word: its low bits, and then its high bits, which were left over."""
    return [WORD % 2**PRECISION, WORD >> PRECISION]


def interval(quantile):
    """The symbol whose interval holds the quantile, and where that begins."""
    symbol = next(k for k in range(len(WEIGHTS)) if quantile < sum(WEIGHTS[: k + 1]))
    return symbol, sum(WEIGHTS[:symbol])


def word(y):
    """The word as its bits, each in the colour of the decode that takes it."""
    drawn = [text(MARGIN, y - 12, f"the word {WORD}, bit by bit, the highest first", anchor="start")]
    start = MARGIN + CELL * (2**PRECISION - WORD_BITS) / 2
    for place, bit in enumerate(format(WORD, f"0{WORD_BITS}b")):
        colour = DECODES[1 if place < WORD_BITS - PRECISION else 0]
        drawn += [box(start + CELL * place, y, CELL, colour), text(start + CELL * (place + 0.5), y + 23, bit)]
    for decode, middle in [(1, (WORD_BITS - PRECISION) / 2), (0, WORD_BITS - PRECISION / 2)]:
        x, name = start + CELL * middle, ["first", "second"][decode]
        drawn.append(text(x, y + HIGH + 18, f"{name} decode: {quantiles()[decode]}", weight="bold"))
        aim = MARGIN + CELL * (quantiles()[decode] + 0.5)
        drawn.append(f'<path d="M{x:g} {y + HIGH + 26} L{aim:g} {y + 118}" stroke="#555" fill="none"/>')
    return drawn


def table(y):
    """The quantiles in the colours of their symbols, and the two that were taken in those of their decodes."""
    drawn = []
    for quantile in range(2**PRECISION):
        symbol, _ = interval(quantile)
        colour = DECODES[quantiles().index(quantile)] if quantile in quantiles() else TABLE[symbol]
        x = MARGIN + CELL * quantile
        drawn += [box(x, y, CELL, colour), text(x + CELL / 2, y + 23, quantile)]
    for symbol, length in enumerate(WEIGHTS):
        left = sum(WEIGHTS[:symbol])
        middle = MARGIN + CELL * (left + length / 2)
        drawn.append(text(middle, y + HIGH + 18, f"symbol {symbol}: left {left}, p {length}", weight="bold"))
    return drawn


def remainders(y):
    """How the number of the remainders grows, decode by decode."""
    number, x = REMAINDER, MARGIN
    drawn = [text(x, y - 12, "the number of the remainders", anchor="start"), box(x, y, 90, "#fff")]
    drawn.append(text(x + 45, y + 23, f"r = {number}"))
    for decode, quantile in enumerate(quantiles()):
        symbol, left = interval(quantile)
        place, length = quantile - left, WEIGHTS[symbol]
        drawn.append(text(x + 180, y + 15, f"symbol {symbol}, t = {quantile} - {left} = {place}", 11))
        drawn.append(text(x + 180, y + 31, f"{number} * {length} + {place} →", 13))
        number, x = number * length + place, x + 270
        drawn += [box(x, y, 90, DECODES[decode]), text(x + 45, y + 23, f"r = {number}")]
    return drawn


def main():
    drawn = word(40) + table(158) + remainders(258)
    width, height = 2 * MARGIN + CELL * 2**PRECISION, 258 + HIGH + 16
    with open(f"{os.path.dirname(os.path.abspath(__file__))}/chain.svg", "w", encoding="utf-8") as out:
        out.write(f'<svg xmlns="http://www.w3.org/2000/svg" viewBox="0 0 {width} {height}" font-family="sans-serif">\n')
        out.write(f'<rect width="{width}" height="{height}" fill="#fff"/>\n' + "\n".join(drawn) + "\n</svg>\n")


if __name__ == "__main__":
    main()
