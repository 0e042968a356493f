"""Latents that are sampled from words: the chain coder keeps a change to itself, the stack coder doesn't.

Some schemes with latents take them off words that are there, and then improve the model of one, as an optimizer does
step by step. With the chain coder each latent depends on its own 24 bits of the words and on its own model, so a
better model changes the one latent alone. With the stack coder what a latent's model leaves of the words changes all
latents behind it.
"""

from __future__ import annotations

import sys
from random import Random
from typing import Any

from constriction.stream.chain import ChainCoder
from constriction.stream.model import QuantizedLaplace
from constriction.stream.stack import AnsCoder
from picture import draw

COUNT, CHANGED = 200, 20
FAMILY = QuantizedLaplace(-40, 40)


def main(arguments: list[str]) -> None:
    """Runs the example and prints its line. With --picture, writes the picture too."""
    dice = Random(12)
    words = [dice.randrange(1 << 32) for _ in range(COUNT)]
    means, scales = [dice.uniform(-9, 9) for _ in range(COUNT)], [dice.uniform(1, 9) for _ in range(COUNT)]
    better = means[:CHANGED] + [means[CHANGED] + 6.5] + means[CHANGED + 1 :]

    differ = []
    for make in (ChainCoder, AnsCoder):
        before = make(words, seal=True).decode(FAMILY, means, scales)
        after = make(words, seal=True).decode(FAMILY, better, scales)
        differ.append([i for i in range(COUNT) if before[i] != after[i]])

    coder = ChainCoder(words, seal=True)
    latents = coder.decode(FAMILY, better, scales)
    left, remainders = coder.get_remainders()
    back = ChainCoder([*left, *remainders], is_remainders=True)
    back.encode_reverse(latents, FAMILY, better, scales)
    below, above = back.get_data(unseal=True)
    same = [*below, *above] == words
    print(
        f"latents that change: chain coder {len(differ[0])}, stack coder {len(differ[1])} of {COUNT}; the words come back: {same}"
    )

    def plot(axes: Any) -> None:
        axes.eventplot(differ)
        axes.set_yticks([0, 1], ["chain coder", "stack coder"])

    title = f"Latents that change when the model of latent {CHANGED} changes"
    draw(plot, arguments, title, "latent, numbered from 0", "coder")


if __name__ == "__main__":
    main(sys.argv[1:])
