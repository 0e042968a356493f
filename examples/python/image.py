"""An image, pixel by pixel: each is guessed from its neighbours above and to the left, and coded under a Gaussian
around that guess.

All guesses are known to the sender, so one call encodes the image. The receiver has to decode a pixel before it can
guess the next.
"""

from __future__ import annotations

import sys
from math import cos, hypot
from random import Random

from constriction.stream.model import QuantizedGaussian
from constriction.stream.queue import RangeDecoder, RangeEncoder
from picture import draw

SIDE, DEVIATION = 64, 2.5
PIXELS = QuantizedGaussian(0, 255)


def gradients() -> list[list[int]]:
    """Rings and a slope, and some noise."""
    dice = Random(5)
    return [
        [
            min(255, max(0, round(128 + 60 * cos(hypot(x - 20, y - 40) / 9) + x - y / 2 + dice.gauss(0, 1.5))))
            for x in range(SIDE)
        ]
        for y in range(SIDE)
    ]


def guess(image: list[list[int]], x: int, y: int) -> float:
    """The plane through three neighbours, within them."""
    if not x or not y:
        return float(image[y][x - 1] if x else image[y - 1][x] if y else 128)
    left, above, corner = image[y][x - 1], image[y - 1][x], image[y - 1][x - 1]
    return float(min(max(left + above - corner, min(left, above)), max(left, above)))


def main(arguments: list[str]) -> None:
    """Runs the example and prints its line. With --picture, writes the picture too."""
    image = gradients()
    places = [(x, y) for y in range(SIDE) for x in range(SIDE)]
    guesses = [guess(image, x, y) for x, y in places]
    stds = [DEVIATION if x and y else 40.0 for x, y in places]

    encoder = RangeEncoder()
    encoder.encode([image[y][x] for x, y in places], PIXELS, guesses, stds)

    decoder, found = RangeDecoder(encoder.get_compressed()), [[0] * SIDE for _ in range(SIDE)]
    for (x, y), std in zip(places, stds):
        found[y][x] = decoder.decode(PIXELS, guess(found, x, y), std)

    plain = RangeEncoder()
    plain.encode([image[y][x] for x, y in places], QuantizedGaussian(0, 255, 140.0, 55.0))
    bits, unguessed = encoder.num_bits() / SIDE**2, plain.num_bits() / SIDE**2
    print(f"the image comes back: {found == image}; {bits:.2f} bits a pixel, {unguessed:.2f} without neighbours")

    title = f"The image: {bits:.2f} bits per pixel"
    draw(lambda axes: axes.imshow(image, cmap="gray"), arguments, title, "column, in pixels", "row, in pixels")


if __name__ == "__main__":
    main(sys.argv[1:])
