"""An image, pixel by pixel, under a mixture of four logistic distributions whose parameters come from its neighbours.

At an edge a pixel is like its left neighbour or like the one above, and one distribution can't say "one of the two".
The output is compared with the information content of the pixels under the exact mixture, in floats.
"""

from __future__ import annotations

import sys
from math import exp, hypot, log2
from random import Random

from constriction.stream.model import QuantizedLogistic, QuantizedMixture
from constriction.stream.queue import RangeDecoder, RangeEncoder
from picture import draw

SIDE = 64
PIXELS = QuantizedMixture(QuantizedLogistic(0, 255))
Row = list[float]


def discs() -> list[list[int]]:
    """Discs with sharp edges on a slope, and some noise."""
    dice, image = Random(3), [[60.0 + x + y / 2 for x in range(SIDE)] for y in range(SIDE)]
    for _ in range(14):
        a, b, radius, tone = dice.uniform(0, SIDE), dice.uniform(0, SIDE), dice.uniform(5, 14), dice.uniform(30, 220)
        for y in range(SIDE):
            for x in range(SIDE):
                if hypot(x - a, y - b) < radius:
                    image[y][x] = tone + x / 3
    return [[min(255, max(0, round(it + dice.gauss(0, 1.5)))) for it in row] for row in image]


def components(image: list[list[int]], x: int, y: int) -> tuple[Row, Row, Row]:
    """Weights, means and scales: around the plane through three neighbours, either neighbour, and anything."""
    left = image[y][x - 1] if x else image[y - 1][x] if y else 128
    above = image[y - 1][x] if y else left
    plane = left + above - (image[y - 1][x - 1] if x and y else left)
    far = abs(left - above) > 12
    weights = [0.2, 0.37, 0.37, 0.06] if far else [0.55, 0.2, 0.2, 0.05]
    return weights, [float(plane), float(left), float(above), 128.0], [1.3, 1.1, 1.1, 35.0]


def information(pixel: int, weights: Row, means: Row, scales: Row) -> float:
    """Bits of a pixel under the exact mixture."""

    def below(place: float) -> float:
        parts = zip(weights, means, scales)
        return sum(weight / (1 + exp(min(700.0, (mean - place) / scale))) for weight, mean, scale in parts)

    low = below(pixel - 0.5) if pixel else 0.0
    return -log2((below(pixel + 0.5) if pixel < 255 else sum(weights)) - low) + log2(sum(weights))


def main(arguments: list[str]) -> None:
    """Runs the example and prints its line. With --picture, writes the picture too."""
    image = discs()
    places = [(x, y) for y in range(SIDE) for x in range(SIDE)]
    pixels = [image[y][x] for x, y in places]
    weights, means, scales = zip(*(components(image, x, y) for x, y in places))

    encoder = RangeEncoder()
    encoder.encode(pixels, PIXELS, weights, means, scales)
    decoder, found = RangeDecoder(encoder.get_compressed()), [[0] * SIDE for _ in range(SIDE)]
    for x, y in places:
        found[y][x] = decoder.decode(PIXELS, *components(found, x, y))

    alone = RangeEncoder()
    alone.encode(pixels, QuantizedLogistic(0, 255), [it[0] for it in means], [4.0] * len(pixels))
    exact = sum(map(information, pixels, weights, means, scales)) / SIDE**2
    bits, one = encoder.num_bits() / SIDE**2, alone.num_bits() / SIDE**2
    print(
        f"the image comes back: {found == image}; {bits:.3f} bits a pixel, exact mixture {exact:.3f}, one logistic {one:.2f}"
    )
    title = f"The image: {bits:.2f} bits per pixel"
    draw(lambda axes: axes.imshow(image, cmap="gray"), arguments, title, "column, in pixels", "row, in pixels")


if __name__ == "__main__":
    main(sys.argv[1:])
