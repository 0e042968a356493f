#!/usr/bin/env python3
"""Draws range.svg beside this file: how the interval of a range coder narrows, part by part, and which word is held
back while the interval reaches over its end. The numbers are those of docs/RANGE.md, computed here from the definition
of the run, in which nothing wraps and no carry is passed on."""

import os

WORD_BITS, STATE_BITS, PRECISION = 8, 16, 8
WEIGHTS, COLOURS = [127, 1, 127, 1], ["#cfe3f7", "#e8505b", "#fbe3b5", "#8a4fbf"]
BAR, HIGH, MARGIN, STEP = 680, 34, 40, 138


def narrowed(low, length, moves, symbol):
    """The run after one symbol."""
    scale = length >> PRECISION
    low, length = low + scale * sum(WEIGHTS[:symbol]), scale * WEIGHTS[symbol]
    if length < 2 ** (STATE_BITS - WORD_BITS):
        low, length, moves = low << WORD_BITS, length << WORD_BITS, moves + 1
    return low, length, moves


def digits(number, count):
    return [number >> WORD_BITS * place & 2**WORD_BITS - 1 for place in reversed(range(count))]


def text(x, y, words, size=13, anchor="middle", weight="normal"):
    return f'<text x="{x:g}" y="{y:g}" font-size="{size}" text-anchor="{anchor}" font-weight="{weight}">{words}</text>'


def parts(length):
    """Where each symbol's part of the bar begins and how wide it is, in pixels."""
    scale, starts = length >> PRECISION, [sum(WEIGHTS[:symbol]) for symbol in range(len(WEIGHTS))]
    return [
        (MARGIN + BAR * scale * start / length, BAR * scale * weight / length) for start, weight in zip(starts, WEIGHTS)
    ]


def bar(y, title, run):
    """The interval as a bar with the symbols' parts, and the line at which its words become the next ones."""
    low, length, moves = run
    drawn = [text(MARGIN, y - 30, title, anchor="start", weight="bold")]
    drawn.append(text(MARGIN + BAR, y - 30, f"A = {low}, R = {length}, n = {moves}", anchor="end"))
    for symbol, (x, width) in enumerate(parts(length)):
        drawn.append(f'<rect x="{x:.2f}" y="{y}" width="{width:.2f}" height="{HIGH}" fill="{COLOURS[symbol]}"/>')
        if WEIGHTS[symbol] > 1:
            drawn.append(text(x + width / 2, y + 22, f"symbol {symbol}", 12))
        else:
            drawn.append(text(x + width / 2, y - 6, symbol, 12))
    drawn.append(f'<rect x="{MARGIN}" y="{y}" width="{BAR}" height="{HIGH}" fill="none" stroke="#555"/>')
    end = (low >> STATE_BITS) + 1 << STATE_BITS
    if moves and end <= low + length:
        x = MARGIN + BAR * (end - low) / length
        drawn.append(f'<path d="M{x:.2f} {y - 4} V{y + HIGH + 12}" stroke="#000" stroke-dasharray="4 3"/>')
        drawn.append(text(x - 8, y + HIGH + 16, f"the words {digits(low >> STATE_BITS, moves)}", 12, "end"))
        if end < low + length:
            drawn.append(text(x + 8, y + HIGH + 16, f"the words {digits(end >> STATE_BITS, moves)}", 12, "start"))
    return drawn


def zoom(y, length, symbol):
    """A light area from a symbol's part to the bar below, which is that part."""
    x, width = parts(length)[symbol]
    corners = f"{x:.2f},{y + HIGH} {x + width:.2f},{y + HIGH} {MARGIN + BAR},{y + STEP} {MARGIN},{y + STEP}"
    return [f'<polygon points="{corners}" fill="{COLOURS[symbol]}" fill-opacity="0.12"/>']


def main():
    """Writes the picture."""
    run, y = (0, 2**STATE_BITS - 1, 0), 54
    drawn = bar(y, "before the first symbol", run)
    for symbol, title in [
        (1, "after symbol 1: the word 126 is held"),
        (3, "after symbol 3: 127 is released, and the word 127 is held"),
    ]:
        drawn = zoom(y, run[1], symbol) + drawn
        run, y = narrowed(*run, symbol), y + STEP
        drawn += bar(y, title, run)
    width, height = 2 * MARGIN + BAR, y + HIGH + 30
    with open(f"{os.path.dirname(os.path.abspath(__file__))}/range.svg", "w", encoding="utf-8") as out:
        out.write(f'<svg xmlns="http://www.w3.org/2000/svg" viewBox="0 0 {width} {height}" font-family="sans-serif">\n')
        out.write(f'<rect width="{width}" height="{height}" fill="#fff"/>\n' + "\n".join(drawn) + "\n</svg>\n")


if __name__ == "__main__":
    main()
