#!/usr/bin/env python3
"""Draws lanes.svg beside this file: four pops of one coder, one after another, and four pops of each of three coders in
the same time; and a pop without a branch, which selects one of two heads. The numbers are computed here from the
definition of a pop."""

import os

WORD_BITS, PRECISION = 8, 4
WEIGHTS, NAMES, COLOURS = [8, 5, 3], "abc", ["#cfe3f7", "#fbe3b5", "#e6d2ee"]
# The head and the words of each coder, the word on top last. The first is the one of docs/ANS.md.
CODERS, STEPS, MOVED = [(5343, [159]), (45131, [52, 201]), (2318, [90, 7])], 4, "#d7f0d0"
HEAD, SYMBOL, GAP, HIGH, MARGIN, LEFT = 76, 28, 10, 32, 24, 104


def popped(head, words):
    """The symbol of a pop, the quantile's place in its interval, the state after it, and whether a word moved in."""
    quantile = head % 2**PRECISION
    symbol = next(k for k in range(len(WEIGHTS)) if quantile < sum(WEIGHTS[: k + 1]))
    place = quantile - sum(WEIGHTS[:symbol])
    head = (head >> PRECISION) * WEIGHTS[symbol] + place
    moves = bool(words) and head >> WORD_BITS == 0
    if moves:
        head, words = (head << WORD_BITS) + words[-1], words[:-1]
    return symbol, place, head, words, moves


def text(x, y, words, size=13, anchor="middle", weight="normal"):
    return f'<text x="{x}" y="{y}" font-size="{size}" text-anchor="{anchor}" font-weight="{weight}">{words}</text>'


def box(x, y, width, words, fill="#fff"):
    """A box with text in its middle."""
    drawn = f'<rect x="{x}" y="{y}" width="{width}" height="{HIGH}" fill="{fill}" stroke="#555"/>'
    return drawn + text(x + width / 2, y + 21, words)


def arrow(x, y, to_x, to_y):
    return f'<path d="M{x} {y} L{to_x} {to_y}" stroke="#555" marker-end="url(#tip)"/>'


def row(y, name, head, words):
    """The pops of one coder: each head, and the symbol that is found in it."""
    x = LEFT + HEAD
    drawn = [text(MARGIN, y + 21, name, anchor="start", weight="bold"), box(LEFT, y, HEAD, head)]
    for _ in range(STEPS):
        symbol, _, head, words, moves = popped(head, words)
        drawn += [
            arrow(x, y + HIGH / 2, x + GAP, y + HIGH / 2),
            box(x + GAP, y, SYMBOL, NAMES[symbol], COLOURS[symbol]),
        ]
        x += GAP + SYMBOL
        drawn += [
            arrow(x, y + HIGH / 2, x + GAP, y + HIGH / 2),
            box(x + GAP, y, HEAD, head, MOVED if moves else "#fff"),
        ]
        x += GAP + HEAD
    return drawn


def selection(y, head, words):
    """A pop that computes both heads, and then selects one."""
    symbol, place, after, _, moves = popped(head, words)
    low = (head >> PRECISION) * WEIGHTS[symbol] + place
    both = f"no word: {head >> PRECISION} * {WEIGHTS[symbol]} + {place} = {low}", f"a word: {low} * 256 + {words[-1]}"
    middle, x = y + 22 + HIGH / 2, LEFT
    drawn = [text(MARGIN, y + 43, f"pop {NAMES[symbol]}", anchor="start", weight="bold"), box(x, y + 22, HEAD, head)]
    x += HEAD + GAP
    drawn += [arrow(x - GAP, middle, x, middle), box(x, y + 22, SYMBOL, NAMES[symbol], COLOURS[symbol])]
    x += SYMBOL + 2 * GAP
    for at, words_of in zip((y, y + 44), both):
        drawn += [arrow(x - 2 * GAP, middle, x, at + HIGH / 2), box(x, at, 190, words_of)]
        drawn += [arrow(x + 190, at + HIGH / 2, x + 190 + 2 * GAP, middle)]
    x += 190 + 2 * GAP
    why = f"{low} is {'below' if moves else 'at least'} {2**WORD_BITS}"
    return [
        *drawn,
        box(x, y + 22, HEAD, after, MOVED if moves else "#fff"),
        text(x + HEAD + GAP, y + 43, why, anchor="start"),
    ]


def title(y, words):
    return text(MARGIN, y, words, anchor="start")


def main():
    """Writes the picture."""
    end = LEFT + HEAD + STEPS * (2 * GAP + SYMBOL + HEAD)
    drawn = [title(28, "one coder: each pop needs the head that the pop before it left"), *row(40, "coder", *CODERS[0])]
    drawn.append(title(104, "three coders: their pops run at the same time"))
    for place, coder in enumerate(CODERS):
        drawn += row(116 + (HIGH + 8) * place, f"coder {place + 1}", *coder)
    drawn += [arrow(LEFT, 244, end, 244), text((LEFT + end) / 2, 262, "time", 12)]
    drawn.append(f'<rect x="{end - 118}" y="252" width="12" height="12" fill="{MOVED}" stroke="#555"/>')
    drawn.append(text(end, 262, "a word moved in", 12, "end"))
    drawn.append(title(300, "a pop without a branch: it computes both heads, and then selects one"))
    _, _, head, words, _ = popped(*CODERS[0])
    drawn += selection(314, head, words)
    _, _, head, words, _ = popped(head, words)
    drawn += selection(410, head, words)
    width, height = end + MARGIN, 502
    with open(f"{os.path.dirname(os.path.abspath(__file__))}/lanes.svg", "w", encoding="utf-8") as out:
        out.write(f'<svg xmlns="http://www.w3.org/2000/svg" viewBox="0 0 {width} {height}" font-family="sans-serif">\n')
        out.write('<defs><marker id="tip" markerWidth="7" markerHeight="7" refX="6" refY="3" orient="auto">')
        out.write('<path d="M0 0 L6 3 L0 6 z" fill="#555"/></marker></defs>\n')
        out.write(f'<rect width="{width}" height="{height}" fill="#fff"/>\n' + "\n".join(drawn) + "\n</svg>\n")


if __name__ == "__main__":
    main()
