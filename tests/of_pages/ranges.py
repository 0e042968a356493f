"""docs/RANGE.md: the range coder as one growing number, with words of 8 bits and a precision of 8."""

from __future__ import annotations

from judging import Page, bits_of_information, digits, entries, judge, listed, series, symbol_at

WEIGHTS = [127, 1, 127, 1]


def start(state):
    """Returns the run before the first symbol."""
    return 0, 2**state - 1, 0


def narrowed(weights, symbol, low, length, moves, state=16):
    """Returns the run after a symbol, and the three intermediate numbers."""
    scale = length // 256
    left, weight = entries(weights)[symbol]
    low, length = cut = low + scale * left, scale * weight
    if length < 2 ** (state - 8):
        low, length, moves = low * 256, length * 256, moves + 1
    return (low, length, moves), (scale, *cut)


def sealed(low, length, moves, state=16):
    """Returns the seal's number, and the words."""
    unit = 2 ** (state - 8)
    number = -(-low // unit)
    return number, digits(number, moves + 1) + [0] * ((low + length) // unit == number)


def zero_words(low, length, state):
    """Returns the least number of zero words after which any words may follow."""
    unit = 2 ** (state - 8)
    number = -(-low // unit)
    return next(t for t in range(state // 8) if number * unit + unit // 256**t <= low + length)


def number_of(words, count):
    """Returns the number of the first `count` words, with zeros past their end."""
    return sum(word << 8 * (count - 1 - place) for place, word in enumerate(words[:count]))


def found(tables, words, state):
    """Returns the decoded symbols, each with its moves, number, low end and quantile, and the run after them."""
    symbols, stands, run = [], [], start(state)
    for weights in tables:
        number = number_of(words, run[2] + state // 8)
        quantile = (number - run[0]) // (run[1] // 256)
        symbols.append(symbol_at(weights, quantile))
        stands.append((run[2], number, run[0], quantile))
        run, _ = narrowed(weights, symbols[-1], *run, state)
    return symbols, stands, run


def steps(page, tables, symbols, state):
    """Finds the rows of the steps. Returns the runs after them."""
    runs = [start(state)]
    page.row("", "", "", "", *runs[0])
    for weights, symbol in zip(tables, symbols):
        run, way = narrowed(weights, symbol, *runs[-1], state)
        runs.append(run)
        page.row(symbol, *way, *run)
    return runs[1:]


def growing(page):
    """Finds the table, the two steps and their seal. Returns the runs and the words."""
    for symbol, (left, length) in enumerate(entries(WEIGHTS)):
        page.row(symbol, left, length, bits_of_information(length, 8))
    page.has(f"It starts with `A = 0`, `R = {start(16)[1]}`, `n = 0`")
    runs = steps(page, [WEIGHTS] * 2, [1, 3], 16)
    number, words = sealed(*runs[-1])
    a, b, c = words
    judge(number == number_of(words, 3), "the seal's digits")
    worth = f"{a} * 256^2 + {b} * 256 + {c}"
    page.has(f"`c = {number} = {worth}`, so the words are `{listed(words)}`")
    return runs, words


def next_word(page, run):
    """Finds the effect of each symbol on the pending word after the first step."""
    held, lower = divmod(run[0], 2**16)
    length, end = run[1], lower + run[1]
    judge(end > 65535, "the interval straddles two words")
    page.has(f"`{run[0]} = {held} * 65536 + {lower}`, and `{lower} + {length}` is above 65535")
    page.has(f"some of its numbers begin with {held}, some with {held + 1}")
    page.has(f"counts from the first number that begins with the word {held}:")
    why = {0: ": no number of the part reaches 65536", 2: ": all numbers of the part are above 65535"}
    for symbol, (left, weight) in enumerate(entries(WEIGHTS)):
        begin, end = lower + length // 256 * left, lower + length // 256 * (left + weight)
        known = end <= 65536 or begin >= 65536
        judge(known == (symbol != 1) and (begin >= 65536) == (symbol >= 2), "which word it is")
        page.row(symbol, begin, end, f"{held + (begin >= 65536)}{why.get(symbol, '')}" if known else "not known yet")
    page.has(f"**holds** the word {held}. Its `EncoderSituation` is `Inverted(1, {held})`: one word is pending")
    page.has(f"and it is {held} unless a **carry** comes")
    return held, lower


def waiting(page, runs, words):
    """Finds pending words, and carries through them."""
    held, lower = next_word(page, runs[0])
    page.row("", 0, 65535, "", "", "")
    why = f"`z * p` is below 256, so the word {held} is shifted out and held"
    page.row(1, lower, runs[0][1], "", held, why)
    low, length, _ = runs[1]
    both, lower = divmod(low, 2**16)
    judge(digits(both, 2) == [127, 127], "the words of the third bar")
    page.has(f"The second reaches from the word {held} to the word {held + 1}")
    page.has("the third from the words 127, 127 to their end")
    why = f"the part is above 65535: a carry turns the word into {held + 1}"
    why += f"; the next word, again {both % 256}, is held"
    page.row(3, lower, length, held + 1, both % 256, why)
    judge(lower + length == 65536, "an interval that just reaches the end")
    page.has(f"`{lower} + {length}` is exactly 65536")
    page.has(f"then its own word, {words[2]}")

    run, _ = narrowed(WEIGHTS, 1, *runs[0])
    a, b = digits(run[0] // 2**16, 2)
    judge(run[0] % 2**16 + run[1] > 65536, "two words are held")
    page.has(f"After the symbols 1, 1 the encoder holds {a} and {b} as `Inverted(2, {a})`")
    run, _ = narrowed(WEIGHTS, 3, *run)
    c, d = digits(run[0] // 2**24, 2)
    judge(256 * c + d == 256 * a + b + 1, "a carry through two words")
    page.has(f"After one more symbol 3 a carry turns `[{a}, {b}]` into `[{c}, {d}]`")


def reading(page, runs, words):
    """Finds the rows of the two reads."""
    symbols, stands, end = found([WEIGHTS] * 2, words, 16)
    judge(symbols == [1, 3] and end == runs[1], "the symbols come back")
    for symbol, (count, number, low, quantile) in zip(symbols, stands):
        page.row(count, series(words[: count + 2]), number, low, number - low, quantile, symbol)
    number = number_of(words, 4)
    page.row(end[2], f"{series(words)}, and a zero", number, end[0], number - end[0], "", "")


def following(page):
    """Finds the self-delimiting seal, with states of 32 bits."""
    tables, symbols = [[27, 229], [19, 237], [128, 128]], [0, 0, 1]
    weights = [f"`{listed(table)}`" for table in tables]
    page.has(
        f"With states of 32 bits `q` is `2^24`. The symbols {symbols[0]}, {symbols[1]} and {symbols[2]}, under the weights {weights[0]}, {weights[1]} and {weights[2]}, leave"
    )
    low, length, moves = steps(page, tables, symbols, 32)[-1]
    number, words = sealed(low, length, moves, 32)
    room, zeros = low + length - number * 2**24, zero_words(low, length, 32)
    page.has(f"So `c = {number}`, and `A + R` is {low + length}, which is `c * q + {room}`")
    page.has(
        f"The interval has {room} numbers at or above `c * q`. With `t` zero words the seal needs `q / 256^t` such numbers: `2^24`, {2**24 // 256} or {2**24 // 256**2}. So `t` is {zeros}"
    )
    longer = digits(number, moves + 1) + [0] * zeros
    others, within = words + [255, 255], words + [0, 255]
    judge(found(tables, words, 32)[0] == found(tables, within, 32)[0] == symbols, "what may follow the seal")
    judge(found(tables, others, 32)[0][:2] == [0, 1] and number_of(others, 4) >= low + length, "what may not")
    enough = f"The `{listed(words)}` of `into_compressed` isn't enough: `{listed(others)}` is past the interval"
    page.has(f"the words are `{listed(longer)}`. {enough}")


def joined(page):
    """Finds two lists, one after the other, with states of 32 bits."""
    tables, symbols = [WEIGHTS] * 2, [1, 3]
    other, later = [129, 127], [0, 1, 1]
    first, second = self_delimited(tables, symbols), self_delimited([other] * 3, later)
    page.has(
        f"With states of 32 bits, the symbols `{listed(symbols)}` under the weights `{listed(WEIGHTS)}` give `{listed(first)}`"
    )
    page.has(f"The symbols `{listed(later)}` under `{listed(other)}` give `{listed(second)}`")
    words = first + second
    judge(
        found(tables, words, 32)[0] == symbols and found([other] * 3, words[len(first) :], 32)[0] == later,
        "both lists come back",
    )
    page.has(f"In `{listed(words)}` the second list begins at place {len(first)}")
    judge(len(words) == 4, "the fourth word")
    page.has(
        f"A decoder at place 0 reads {words[3]} as its fourth word and still returns {symbols[0]} and {symbols[1]}"
    )


def self_delimited(tables, symbols, state=32):
    """Returns the self-delimiting words of symbols."""
    run = start(state)
    for weights, symbol in zip(tables, symbols):
        run, _ = narrowed(weights, symbol, *run, state)
    low, length, moves = run
    return digits(-(-low // 2 ** (state - 8)), moves + 1) + [0] * zero_words(low, length, state)


def test():
    """Judges the page."""
    page = Page("docs/RANGE.md")
    runs, words = growing(page)
    waiting(page, runs, words)
    reading(page, runs, words)
    following(page)
    joined(page)
    judge(2 ** (64 - 32 - 24) == 2**8, "the default coder's least scale")
    # Sizes: words of 8 bits, states of 16, 256 of either, the weights; and the default coder's precision.
    page.rest("0", "1", "2", "8", "16", "24", "255", "256", "127")
