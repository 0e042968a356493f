"""docs/ANS.md: the stack coder, with words of 8 bits, heads of 16 and a precision of 4."""

from __future__ import annotations

from judging import Page, bits_of_information, digits, entries, judge, listed, quantiles, series, symbol_at

WEIGHTS, NAMES = [8, 5, 3], "abc"


def pop(weights, head, words):
    """Returns the symbol of a pop, its quantile, the head before a word moves in, and the state after the pop."""
    quantile = head % 16
    symbol = symbol_at(weights, quantile)
    left, length = entries(weights)[symbol]
    head = low = head // 16 * length + quantile - left
    if head < 2**8 and words:
        head, words = head * 2**8 + words[-1], words[:-1]
    return symbol, quantile, low, head, words


def push(weights, symbol, head, words):
    """Returns the one state whose pop returns this symbol and this state, by a search."""
    left, length = entries(weights)[symbol]
    found = []
    for moved in (0, 1):
        low, below = (head % 2**8, head // 2**8) if moved else (None, head)
        after = (below // length * 16 + left + below % length, words + [low] if moved else words)
        valid = after[0] < 2**16 and (after[0] >= 2**8 or not after[1])
        if valid and pop(weights, *after)[0] == symbol and pop(weights, *after)[3:] == (head, words):
            found.append((moved, low, below, *after))
    assert len(found) == 1
    return found[0]


def pushes(page, head, words):
    """Finds the rows of the four pushes. Returns the state after them and the states before each."""
    before = []
    for symbol in [2, 0, 1, 2]:
        (left, length), old, top = entries(WEIGHTS)[symbol], head, head // 2**12
        before.append((head, words))
        moved, low, below, head, words = push(WEIGHTS, symbol, head, words)
        room = (
            f"{top} < {length} fails: the word {low} moves out, the head becomes {below}"
            if moved
            else f"{top} < {length}"
        )
        room += " (by chance equal)" if low == below else ""
        judge(moved == (top >= length), "the room of a push")
        after = f"{below} / {length} * 16 + {left} + {below} % {length} = {head}"
        page.row(NAMES[symbol], old, room, after, series(words) or "none")
    return head, words, before


def pops(page, head, words, before):
    """Finds the rows of the four pops, which restore the states before the pushes."""
    while before:
        symbol, quantile, low, back, rest = pop(WEIGHTS, head, words)
        left, length = entries(WEIGHTS)[symbol]
        moves = ""
        if len(rest) < len(words):
            moves = f"below 256: {words[-1]} moves in, {low} * 256 + {words[-1]} = {back}"
        page.row(head, quantile, NAMES[symbol], f"{head // 16} * {length} + {quantile - left} = {low}", moves)
        head, words = back, rest
        judge((head, words) == before.pop(), "a pop undoes a push")


def selections(page, before):
    """Finds the two pops of the page's coder between which the branch differs. ``before`` are the states of its pushes."""
    (_, _), (_, _), (head, words), (first, rest) = before
    judge(words == rest, "no word moves between the two pops")
    symbol, quantile, low, back, _ = pop(WEIGHTS, first, rest)
    left, length = entries(WEIGHTS)[symbol]
    formula = f"{first // 16} * {length} + {quantile - left} = {low}"
    judge(low == back == head, "the head that is selected without a word")
    low, back = pop(WEIGHTS, head, words)[2:4]
    moved = f"{low} * 256 + {words[-1]} = {back}"
    page.has(f"after {first} the low head `{formula}`, and after {head} the head `{moved}`, because {low} is below 256")


def rounds_within(head, length, precision, word, state, bits):
    """Returns whether pushes of a weight change the head by its exact factor, up to a relative error of 1 / 2^bits."""
    if head >> state - precision >= length:
        head >>= word
    whole, rest = divmod(head, length)
    afters = [(whole << precision) + left + rest for left in (0, 2**precision - length)]
    return all(abs(after * length - (head << precision)) << bits <= head << precision for after in afters)


def rounding(page):
    """Checks the rounding errors of all heads and weights here, and of the default coder's extreme ones."""
    for length in range(1, 2**4):
        near = all(rounds_within(head, length, 4, 8, 16, 4) for head in range(2**8, 2**16))
        judge(near, f"{page.name}: the rounding error of a push of weight {length}")
    lengths = {2**power + more for power in range(25) for more in (-1, 0, 1)}
    for length in (it for it in sorted(lengths) if 0 < it < 2**24):
        heads = [
            head + (rest << word) for head in (2**32, length << 40) for word in (0, 32) for rest in (0, length - 1)
        ]
        near = all(rounds_within(head, length, 24, 32, 64, 8) for head in heads)
        judge(near, f"{page.name}: the rounding error of a push of weight {length} in 24 bits")
    page.has(
        "If the head is at least 2^8 before the push, rounding changes the new head by at most 2^-4 of its exact value"
    )
    page.has("For `DefaultAnsCoder` at 24 bits and heads of at least 2^32, the bound is 2^-8")


def commands(page):
    """Checks two pushes at the program's sizes. readme.py runs the coders' definitions for the page's commands."""
    weights, word, state = [3, 2, 16777211], 32, 64
    (left, length), precision = entries(weights)[1], 24
    judge(sum(weights) == 2**precision and length << state - precision == 2**41, "the program's table")
    page.has(f"The program's tables have {precision} bits of precision, and its words have {word} bits")
    page.has(
        f"The weights 3, 2 and {weights[2]} belong to the symbols 0, 1 and 2. Symbol 1 has `left = {left}` and `p = {length}`"
    )
    page.has(f"a head below 2^41 gives `head / {length} * 2^{precision} + {left} + head % {length}`")
    heads = [0]
    for _ in range(2):
        heads.append(heads[-1] // length * 2**precision + left + heads[-1] % length)
    page.has(f"The first push turns {heads[0]} into {heads[1]}, and the second turns {heads[1]} into {heads[2]}")
    page.has(f"printf '3 2 {weights[2]}\\n1 1\\n' | ./constriction ans-encode # prints {heads[2]}")
    page.has(f"printf '3 2 {weights[2]}\\n2 {heads[2]}\\n' | ./constriction ans-decode # prints 1 1")


def test():
    """Judges the page."""
    page = Page("docs/ANS.md")
    for (left, length), name in zip(entries(WEIGHTS), NAMES):
        page.row(name, left, length, quantiles(left, length), bits_of_information(length, 4))
    head = 29 * 256 + 237
    page.has(
        f"imports the words `[237, 29]`, last word first. Its head becomes `29 * 256 + 237 = {head}`, with no words below"
    )
    head, words, before = pushes(page, head, [])
    export = words + list(reversed(digits(head, 2)))
    page.has(f"`{listed(export)}`, since `{head} = {head // 256} * 256 + {head % 256}`")
    selections(page, list(before))
    pops(page, head, words, before)
    page.has("`log2(16 / p)` bits")
    rounding(page)
    commands(page)
    # Sizes, the quantile by 16, the steps of bits back, and the weights.
    page.rest("0", "1", "2", "3", "4", "5", "8", "12", "16")
