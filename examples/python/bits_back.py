"""Bits back: numbers from a mixture cost as little as if the mixture had no parts.

Which part a number came from is nobody's business, but a model of it is simple only with the part. So the sender
takes the part off the words that are there, by the posterior, and codes the number and then the part. The receiver
gets these bits back.
"""

from __future__ import annotations

import sys
from math import log2
from random import Random
from typing import Any

from constriction.stream.model import Categorical, QuantizedGaussian, WeightTable
from constriction.stream.stack import AnsCoder
from picture import draw

COUNT, TOTAL = 1500, 1 << 24
PARTS = [(-20.0, 3.0), (0.0, 9.0), (25.0, 2.0)]
PRIOR = Categorical([3, 5, 2])
LIKELIHOODS = [QuantizedGaussian(-50, 50, mean, std) for mean, std in PARTS]
JOINT = [[prior * weight for weight in it.table()] for prior, it in zip(PRIOR.table(), LIKELIHOODS)]
CHANCES = [sum(row) for row in zip(*JOINT)]  # Of each number, as parts of TOTAL squared.
POSTERIORS = [Categorical(list(row)) for row in zip(*JOINT)]


def drawn() -> list[int]:
    dice = Random(8)
    parts = dice.choices(PARTS, PRIOR.table(), k=COUNT)
    return [min(50, max(-50, round(dice.gauss(*it)))) for it in parts]


def main(arguments: list[str]) -> None:
    """Runs the example and prints its line. With --picture, writes the picture too."""
    numbers, dice = drawn(), Random(9)
    words = [dice.randrange(1 << 32) for _ in range(20)]
    sender, sizes, bound = AnsCoder(words, seal=True), [], [0.0]
    for number in numbers:
        part = sender.decode(POSTERIORS[number + 50])
        sender.encode_reverse(number, LIKELIHOODS[part])
        sender.encode_reverse(part, PRIOR)
        sizes.append(sender.num_valid_bits() - 32 * len(words))
        bound.append(bound[-1] + 2 * log2(TOTAL) - log2(CHANCES[number + 50]))

    receiver, found = AnsCoder(sender.get_compressed()), []
    for _ in numbers:
        part = receiver.decode(PRIOR)
        found.append(receiver.decode(LIKELIHOODS[part]))
        receiver.encode_reverse(part, POSTERIORS[found[-1] + 50])

    back = found[::-1] == numbers and receiver.get_binary().tolist() == words
    text = f"{sizes[-1] / COUNT:.3f} net bits a number, information content {bound[-1] / COUNT:.3f};"
    print(text, f"numbers and words come back: {back}")

    def plot(axes: Any) -> None:
        axes.plot(bound, color="lightgray", linewidth=7, label="information content of the numbers")
        axes.plot([0, *sizes], label="net bits of the stack coder")

    draw(plot, arguments, "Bits back", "numbers sent", "bits")


if __name__ == "__main__":
    main(sys.argv[1:])
