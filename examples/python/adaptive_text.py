"""A text under a model that learns how often each letter follows the letter before it.

The receiver counts the decoded letters, so no table is sent. Each letter is a call of its own, under a row of counts.
"""

from __future__ import annotations

import bz2
import lzma
import sys
import zlib
from math import log2
from random import Random
from typing import Any

from constriction.stream.model import Categorical
from constriction.stream.queue import RangeDecoder, RangeEncoder
from picture import draw

LETTERS, COUNT, MODEL = "abdegiklmnorstu. ", 6000, Categorical(perfect=False)


def made_up_text(count: int) -> str:
    """Words of syllables, some of which are frequent."""
    dice, text = Random(3), ""
    parts = "bdgklmnrst", "aaaeeiou", ["", "", "n", "r", "s"]
    while len(text) < count:
        text += "".join(dice.choice(it) for _ in range(dice.randint(1, 3)) for it in parts)
        text += dice.choice([" ", " ", " ", ". "])
    return text[:count]


class Counts:
    """A row of counts for each letter before, which begin at 1."""

    def __init__(self) -> None:
        self.rows = [[1] * len(LETTERS) for _ in LETTERS]
        self.before = LETTERS.index(" ")

    def row(self) -> list[int]:
        return self.rows[self.before]

    def learn(self, letter: int) -> None:
        self.rows[self.before][letter] += 8
        self.before = letter


def entropy(letters: list[int]) -> float:
    """Bits a letter, given the one before, if the counts of the whole text were known."""
    counts = [[0] * len(LETTERS) for _ in LETTERS]
    for before, letter in zip([LETTERS.index(" "), *letters], letters):
        counts[before][letter] += 1
    return -sum(it * log2(it / sum(row)) for row in counts for it in row if it) / len(letters)


def main(arguments: list[str]) -> None:
    """Runs the example and prints its line. With --picture, writes the picture too."""
    letters = [LETTERS.index(it) for it in made_up_text(COUNT)]
    encoder, counts, bits = RangeEncoder(), Counts(), []
    for letter in letters:
        encoder.encode(letter, MODEL, counts.row())
        counts.learn(letter)
        bits.append(encoder.num_bits())
    decoder, counts = RangeDecoder(encoder.get_compressed()), Counts()
    for letter in letters:
        assert decoder.decode(MODEL, counts.row()) == letter
        counts.learn(letter)
    data, size, bound = bytes(letters), bits[-1], entropy(letters)
    least = size < min(8 * len(it(data)) for it in (zlib.compress, bz2.compress, lzma.compress))
    print(f"{size / COUNT:.2f} bits a letter, conditional entropy {bound:.2f}, fewer than zlib, bz2 and lzma: {least}")

    def plot(axes: Any) -> None:
        axes.plot(range(100, COUNT + 1), [bits[i - 1] / i for i in range(100, COUNT + 1)], label="range coder")
        axes.axhline(bound, color="gray", linestyle="--", label="conditional entropy of the whole text")

    draw(plot, arguments, "A model that learns from the text", "letters so far", "bits per letter")


if __name__ == "__main__":
    main(sys.argv[1:])
