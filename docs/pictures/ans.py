#!/usr/bin/env python3
"""Draws ans.svg beside this file: how the quantiles of a head fall into the intervals of a table, and how a word moves
out of a head that has no room. The numbers are those of docs/ANS.md, computed here from the definition of a push."""

import os

WORD_BITS, STATE_BITS, PRECISION = 8, 16, 4
WEIGHTS, NAMES, COLOURS = [8, 5, 3], "abc", ["#cfe3f7", "#fbe3b5", "#e6d2ee"]
CELL, HIGH, MARGIN = 40, 36, 24


def pushed(head, words, symbol):
    """The state after a push, whether a word moved out, and the head that it left."""
    left, length = sum(WEIGHTS[:symbol]), WEIGHTS[symbol]
    moves = head >> (STATE_BITS - PRECISION) >= length
    if moves:
        words, head = [head % 2**WORD_BITS, *words], head >> WORD_BITS
    return (head // length << PRECISION) + left + head % length, words, moves, head


def symbol_of(quantile):
    return next(k for k in range(len(WEIGHTS)) if quantile < sum(WEIGHTS[: k + 1]))


def text(x, y, words, size=13, anchor="middle", weight="normal"):
    return f'<text x="{x}" y="{y}" font-size="{size}" text-anchor="{anchor}" font-weight="{weight}">{words}</text>'


def box(x, y, width, fill):
    return f'<rect x="{x}" y="{y}" width="{width}" height="{HIGH}" fill="{fill}" stroke="#555"/>'


def quantiles(y):
    """A row of the numbers below two to the precision, each in the colour of its symbol."""
    drawn = [text(MARGIN, y - 10, "quantiles 0 to 15, and the interval of each symbol", anchor="start")]
    for quantile in range(2**PRECISION):
        x = MARGIN + CELL * quantile
        drawn += [box(x, y, CELL, COLOURS[symbol_of(quantile)]), text(x + CELL / 2, y + 23, quantile)]
    for symbol, length in enumerate(WEIGHTS):
        middle = MARGIN + CELL * (sum(WEIGHTS[:symbol]) + length / 2)
        drawn.append(
            text(middle, y + HIGH + 18, f"{NAMES[symbol]}: left {sum(WEIGHTS[:symbol])}, p {length}", weight="bold")
        )
    return drawn


def push(y, head, words, symbol):
    """One push: the head before, what moves out, the head after with its quantile in the symbol's colour."""
    after, below, moves, left_over = pushed(head, words, symbol)
    drawn = [
        text(MARGIN, y + 23, f"push {NAMES[symbol]}", anchor="start", weight="bold"),
        box(92, y, 104, "#fff"),
        text(144, y + 23, f"head {head}"),
    ]
    if moves:
        drawn += [
            text(264, y + 14, f"word {head % 2**WORD_BITS} moves out", 11),
            text(264, y + 30, f"head {left_over} is left", 11),
        ]
    drawn += [text(335, y + 23, "→", 18), box(360, y, 110, "#fff"), text(415, y + 23, f"head {after}")]
    drawn += [box(480, y, 90, COLOURS[symbol]), text(525, y + 23, f"quantile {after % 2**PRECISION}")]
    drawn.append(text(590, y + 23, "words " + (", ".join(map(str, below)) or "none"), anchor="start"))
    return drawn, after, below


def main():
    """Writes the picture."""
    drawn, y, head, words = quantiles(40), 130, 7661, []
    for symbol in [2, 0, 1, 2]:
        more, head, words = push(y, head, words, symbol)
        drawn, y = drawn + more, y + HIGH + 14
    width, height = 2 * MARGIN + CELL * 2**PRECISION, y + 6
    with open(f"{os.path.dirname(os.path.abspath(__file__))}/ans.svg", "w", encoding="utf-8") as out:
        out.write(f'<svg xmlns="http://www.w3.org/2000/svg" viewBox="0 0 {width} {height}" font-family="sans-serif">\n')
        out.write(f'<rect width="{width}" height="{height}" fill="#fff"/>\n' + "\n".join(drawn) + "\n</svg>\n")


if __name__ == "__main__":
    main()
