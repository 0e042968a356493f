"""64 streams in lockstep: a model predicts the next symbol of all streams at once, and each stream has its own coder.

So a batch of sequences is coded with one run of a network a step, and each sequence is still read alone. The model
here is a small recurrence for each stream, whose next mean depends on the symbols before.
"""

from __future__ import annotations

import sys
from math import erf, log2
from random import Random

from constriction.stream.model import QuantizedGaussian
from constriction.stream.queue import RangeDecoder, RangeEncoder
from picture import draw

STREAMS, STEPS, STD = 64, 120, 2.5
FAMILY = QuantizedGaussian(-100, 100)


class Predictor:
    """The state of each stream: a mean that follows the symbols."""

    def __init__(self) -> None:
        self.means = [0.0] * STREAMS

    def learn(self, symbols: list[int]) -> None:
        """Takes the next symbol of each stream."""
        self.means = [0.25 * mean + 0.7 * symbol for mean, symbol in zip(self.means, symbols)]


def drawn() -> list[list[int]]:
    """The symbols of all streams, one step after another."""
    dice, predictor, steps = Random(64), Predictor(), []
    for _ in range(STEPS):
        steps.append([max(-100, min(100, round(dice.gauss(mean, STD)))) for mean in predictor.means])
        predictor.learn(steps[-1])
    return steps


def information(symbol: int, mean: float) -> float:
    """Bits of a symbol under its Gaussian."""
    low, high = (0.5 + 0.5 * erf((symbol + side - mean) / STD / 2**0.5) for side in (-0.5, 0.5))
    return -log2(high - low)


def main(arguments: list[str]) -> None:
    """Runs the example and prints its line. With --picture, writes the picture too."""
    steps, predictor = drawn(), Predictor()
    encoders, bound, means = [RangeEncoder() for _ in range(STREAMS)], 0.0, []
    for symbols in steps:
        for encoder, symbol, mean in zip(encoders, symbols, predictor.means):
            encoder.encode(symbol, FAMILY, mean, STD)
        bound += sum(map(information, symbols, predictor.means))
        means.append(predictor.means)
        predictor.learn(symbols)

    decoders, predictor, found = [RangeDecoder(it.get_compressed()) for it in encoders], Predictor(), []
    for _ in range(STEPS):
        found.append([it.decode(FAMILY, mean, STD) for it, mean in zip(decoders, predictor.means)])
        predictor.learn(found[-1])

    alone = RangeEncoder()
    alone.encode([it[5] for it in steps], FAMILY, [it[5] for it in means], STD)
    same = alone == encoders[5]
    bits, count = sum(it.num_bits() for it in encoders), STREAMS * STEPS
    text = f"{bits / count:.3f} bits a symbol, information content {bound / count:.3f}"
    print(f"{STREAMS} streams come back: {found == steps}; {text}; one alone is the same: {same}")

    sizes = [it.num_bits() / STEPS for it in encoders]
    draw(lambda axes: axes.hist(sizes, bins=20), arguments, "Sizes of the streams", "bits per symbol", "streams")


if __name__ == "__main__":
    main(sys.argv[1:])
