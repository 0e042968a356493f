"""A text under a row of probabilities for each letter, as a language model has them.

The model mixes how often each letter followed up to three letters before it, in a text that the receiver has too. The
sender computes all rows and makes one call. The receiver needs the letters before, so it makes a call for each.
"""

from __future__ import annotations

import sys
from collections import Counter
from itertools import accumulate
from math import log2
from typing import Any

from adaptive_text import LETTERS, made_up_text
from constriction.stream.model import Categorical
from constriction.stream.queue import RangeDecoder, RangeEncoder
from picture import draw

COUNT, ORDER = 4000, 3


class Model:
    """How often each letter followed the letters before it, and rows of probabilities from these counts."""

    def __init__(self, text: str) -> None:
        self.counts = Counter(text[i - n : i + 1] for n in range(ORDER + 1) for i in range(n, len(text)))
        self.totals = Counter(text[i - n : i] for n in range(ORDER + 1) for i in range(n, len(text)))

    def row(self, before: str) -> list[float]:
        """The probability of each letter behind these letters."""
        row = [1 / len(LETTERS)] * len(LETTERS)
        for n in range(ORDER + 1):
            context = before[len(before) - n :]
            if n > len(before) or not self.totals[context]:
                break
            weight = 4 / (self.totals[context] + 4)
            row = [
                weight * less + (1 - weight) * self.counts[context + letter] / self.totals[context]
                for less, letter in zip(row, LETTERS)
            ]
        return row


def main(arguments: list[str]) -> None:
    """Runs the example and prints its line. With --picture, writes the picture too."""
    text = made_up_text(4 * COUNT)
    model, text = Model(text[:-COUNT]), text[-COUNT:]
    letters, rows = [LETTERS.index(it) for it in text], [model.row(text[max(i - ORDER, 0) : i]) for i in range(COUNT)]
    sizes, words = [], []
    for perfect in (False, True):
        encoder = RangeEncoder()
        encoder.encode(letters, Categorical(perfect=perfect), rows)
        sizes.append(encoder.num_bits())
        words.append(encoder.get_compressed())

    decoder, quick, found = RangeDecoder(words[0]), Categorical(perfect=False), ""
    for _ in range(COUNT):
        found += LETTERS[decoder.decode(quick, model.row(found[-ORDER:]))]

    content = [-log2(row[letter]) for row, letter in zip(rows, letters)]
    bits, bound = sizes[0] / COUNT, sum(content) / COUNT
    said = f"{bits:.3f} bits a letter, information content {bound:.3f}"
    print(f"the text comes back: {found == text}; {said}; by perfect=True {sizes[1] - sizes[0]} bits more")

    def plot(axes: Any) -> None:
        so_far = list(accumulate(content))
        axes.plot(
            range(100, COUNT + 1), [so_far[i - 1] / i for i in range(100, COUNT + 1)], label="information content"
        )
        axes.axhline(bits, color="gray", linestyle="--", label="range coder, whole text")

    draw(plot, arguments, "A text under a row of probabilities for each letter", "letters so far", "bits per letter")


if __name__ == "__main__":
    main(sys.argv[1:])
