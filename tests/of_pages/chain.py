"""docs/CHAIN.md: the chain coder, with words of 8 bits, numbers of 16 and a precision of 4."""

from __future__ import annotations

from math import log2
from typing import NamedTuple, Optional

from ans import pop
from judging import Page, bits_of_information, entries, judge, listed, quantiles, series, symbol_at

WEIGHTS, OTHER, WORDS = [5, 11], [13, 3], [171, 18]


class Decode(NamedTuple):
    """The state before a decode, what the decode took, and the state after it."""

    number: int
    bits: str
    read: Optional[int]
    answer: str
    symbol: int
    place: int
    length: int
    left_over: str
    grown: int

    def way(self):
        """Returns the computation of the new number as text."""
        return f"{self.number} * {self.length} + {self.place} = {self.grown}"


def walk(bits, words):
    """Returns a quantile as bits, the bits left over, the words left, and the word read."""
    if len(bits) >= 4:
        return bits[-4:], bits[:-4], words, None
    word = format(words[-1], "08b")
    return word[4:], bits + word[:4], words[:-1], words[-1]


def decoded(tables, words):
    """Returns the decodes of a coder that imports words, and the words that are left."""
    number, bits, words, decodes = words[-1], "", words[:-1], []
    while number < 2**4:
        number, words = number * 2**8 + words[-1], words[:-1]
    for weights in tables:
        answer, over, rest, read = walk(bits, words)
        symbol = symbol_at(weights, int(answer, 2))
        left, length = entries(weights)[symbol]
        place = int(answer, 2) - left
        grown = number * length + place
        assert grown < 2**12
        decodes.append(Decode(number, bits, read, answer, symbol, place, length, over, grown))
        number, bits, words = grown, over, rest
    return decodes, words


def way_there(page):
    """Finds the two decodes. Returns the remainders head after them."""
    decodes, words = decoded([WEIGHTS] * 2, WORDS)
    page.row("", "", "", "", decodes[0].number)
    for name, it in zip(["first", "second"], decodes):
        spaced = None if it.read is None else f"{it.read:08b}"
        word = "none" if spaced is None else f"{it.read}, which is {spaced[:4]} {spaced[4:]}"
        quantile = int(it.answer, 2)
        page.row(name, it.bits or "none", word, f"{it.answer}, which is {quantile}", it.left_over or "none")
        page.row(name, quantile, it.symbol, it.place, it.way())
    heads = [int("1" + bits, 2) for bits in ("", decodes[0].left_over, decodes[1].left_over)]
    page.has(
        f"a 1 and then the bits. Here the number is {heads[0]}, then {heads[1]} (1 {decodes[0].left_over}), then {heads[2]} again"
    )
    page.has("If the new `r` is 2^12 or more, its low word moves out")
    judge((decodes[-1].left_over, words) == ("", []), "no bits and no words are left")
    high, low = divmod(decodes[-1].grown, 256)
    page.has(f"`{decodes[-1].grown} = {high} * 256 + {low}`, so the remainders are `{listed([low, high, heads[2]])}`")
    return decodes[-1].grown


def other_model(page):
    """Compares both coders over the same words, under two models for the first symbol."""
    head = WORDS[1] * 256 + WORDS[0]
    page.has(f"With the weights {series(OTHER)} in place of {series(WEIGHTS)} for the first symbol")
    ways = []
    for first in (WEIGHTS, OTHER):
        decodes, _ = decoded([first, WEIGHTS], WORDS)
        taken, symbols = series(int(it.answer, 2) for it in decodes), series(it.symbol for it in decodes)
        page.row("chain coder", series(first), taken, symbols)
        one, quantile, left, then, rest = pop(first, head, [])
        two, following, _, _, _ = pop(WEIGHTS, then, rest)
        page.row("stack coder", series(first), f"{quantile}, {following}", f"{one}, {two}")
        begins, length = entries(first)[one]
        ways.append(f"{head // 16} * {length} + {quantile - begins} = {left}")
    page.has(f"first pop takes the head {head} to {ways[0]} (weights {series(WEIGHTS)}) or")
    page.has(f"{ways[1]} (weights {series(OTHER)})")


def way_back(page, number):
    """Finds two encodes of symbol 1, which restore the words."""
    bits, (left, length) = "", entries(WEIGHTS)[1]
    for _ in range(2):
        judge(number >= length * 2**4, "no word of the remainders moves in")
        old, place = number, number % length
        quantile, number, word = left + place, number // length, "none"
        if len(bits) < 4:
            bits += f"{quantile:04b}"
        else:
            bits, word = bits[:-4], int(f"{bits[-4:]}{quantile:04b}", 2)
        page.row(1, old, place, quantile, number, bits or "none", word)
    judge((number, bits, word) == (WORDS[1], "", WORDS[0]), "the words come back")
    page.has("If `r` is below `p * 2^4`")
    page.has(f"`into_compressed` returns `{listed(WORDS)}`")


def test():
    """Judges the page."""
    page = Page("docs/CHAIN.md")
    page.has(f"This table has 4 bits of precision and the weights {series(WEIGHTS)}")
    for symbol, (left, length) in enumerate(entries(WEIGHTS)):
        page.row(symbol, left, length, quantiles(left, length), bits_of_information(length, 4))
    page.has(f"imports the words `{listed(WORDS)}`, the last one first: it reads words until `r` is at least 2^4")
    page.has(f"So `r` is {WORDS[1]}, the word {WORDS[0]} stays on the stack")
    page.has(f"The word {WORDS[0]} as eight bits: the low four are the first quantile, the high four the second one")
    number = way_there(page)
    other_model(page)
    way_back(page, number)
    carried = 2 * (4 - log2(11))
    page.has(f"Two quantiles take 8 bits. The symbols carry {carried:.2f} bits under their model, and the other")
    page.has(f"{8 - carried:.2f} bits are in the remainders")
    page.has("At precision 4, `r` is at least 2^4 and below 2^12. At precision 8, `r` is at least 1 and below 2^8")
    high, low = divmod(number, 256)
    judge(1 <= high < 2**8 <= number, "a change of the precision moves one word")
    page.has(f"`increase_precision::<8>` writes the word {low} and leaves `r = {high}`")
    page.has("and `decrease_precision::<4>` takes the word back")
    # Sizes, and the symbol's length.
    page.rest("1", "2", "4", "8", "11", "16")
