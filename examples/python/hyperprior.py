"""Latents with a hyperprior: a coarser layer, which is sent first, tells the deviation of each latent.

Learned image codecs do this. A network would compute the latents and their deviations. Here both are drawn, and the
coarser layer is the deviation of each block, rounded to a power of the root of 2. The two layers follow one another in
the words of one range coder.
"""

from __future__ import annotations

import sys
from math import log2, sin
from random import Random

from constriction.stream.model import Categorical, QuantizedGaussian
from constriction.stream.queue import RangeDecoder, RangeEncoder
from picture import draw

SIDE, BLOCK, LEVELS = 96, 8, 14
PRIOR = Categorical([1] * LEVELS)
LATENTS = QuantizedGaussian(-255, 255)


def deviation(level: int) -> float:
    """From 1/4 up, twice as much every second level."""
    return float(0.25 * 2 ** (level / 2))


def drawn() -> list[list[int]]:
    """The latents of each block."""
    dice, per_row = Random(4), SIDE // BLOCK
    blocks = []
    for place in range(per_row**2):
        y, x = divmod(place, per_row)
        std = 2 ** (2.0 + 2.5 * sin(x / 2) * sin(y / 3))
        blocks.append([max(-255, min(255, round(dice.gauss(0, std)))) for _ in range(BLOCK**2)])
    return blocks


def level_of(block: list[int]) -> int:
    """The level nearest to the deviation of a block."""
    std = (sum(it * it for it in block) / len(block)) ** 0.5
    return max(0, min(LEVELS - 1, round(2 * log2(max(std, 0.25) / 0.25))))


def main(arguments: list[str]) -> None:
    """Runs the example and prints its line. With --picture, writes the picture too."""
    blocks = drawn()
    latents, levels = [it for block in blocks for it in block], [level_of(it) for it in blocks]

    def deviations(levels: list[int]) -> list[float]:
        return [deviation(it) for it in levels for _ in range(BLOCK**2)]

    encoder = RangeEncoder()
    encoder.encode(levels, PRIOR)
    layer = encoder.num_bits()
    encoder.encode(latents, LATENTS, 0.0, deviations(levels))

    decoder = RangeDecoder.from_bytes(encoder.to_bytes())
    found = decoder.decode(PRIOR, len(levels)).tolist()
    back = decoder.decode(LATENTS, 0.0, deviations(found)).tolist() == latents

    alone, std = RangeEncoder(), (sum(it * it for it in latents) / len(latents)) ** 0.5
    alone.encode(latents, QuantizedGaussian(-255, 255, 0.0, std))
    bits, coarse, one = (it / len(latents) for it in (encoder.num_bits(), layer, alone.num_bits()))
    text = f"{bits:.3f} bits a latent, {coarse:.3f} of these for the deviations; one Gaussian {one:.3f}"
    print(f"the latents come back: {back}; {text}")

    rows = [levels[i : i + SIDE // BLOCK] for i in range(0, len(levels), SIDE // BLOCK)]
    title = "The coarser layer: levels of the deviation"
    draw(lambda axes: axes.imshow(rows), arguments, title, "column, in blocks", "row, in blocks")


if __name__ == "__main__":
    main(sys.argv[1:])
