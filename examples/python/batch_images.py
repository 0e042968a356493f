"""A batch of images, pixel by pixel: the receiver guesses the next pixel of all images from the pixels that it has, and
decodes these 64 pixels in one call.

Each image has a coder of its own, with the words of an ``AnsCoder`` that codes the image alone. The sender knows all
guesses, so one call encodes the batch.
"""

from __future__ import annotations

import sys
from collections.abc import Callable, Iterable
from math import cos, hypot
from random import Random
from time import perf_counter

from constriction.stream.model import QuantizedGaussian
from constriction.stream.stack import AnsCoder, AnsCoders
from picture import draw

IMAGES, SIDE, ACROSS, PIXELS = 64, 16, 8, QuantizedGaussian(0, 255)
PLACES = [(x, y) for y in range(SIDE) for x in range(SIDE)]
Image = list[list[int]]


def rings(dice: Random) -> Image:
    """Rings around a random place, and some noise."""
    right, down, width = dice.uniform(0, SIDE), dice.uniform(0, SIDE), dice.uniform(2, 5)
    heights = [[128 + 60 * cos(hypot(x - right, y - down) / width) for x in range(SIDE)] for y in range(SIDE)]
    return [[min(255, max(0, round(it + dice.gauss(0, 1.5)))) for it in row] for row in heights]


def guess(image: Image, x: int, y: int) -> tuple[float, float]:
    """The plane through three neighbours, and how far a pixel may be from it: the more, the less they are alike."""
    if not x or not y:
        return (float(image[y][x - 1] if x else image[y - 1][x]), 15.0) if x or y else (128.0, 60.0)
    left, above, corner = image[y][x - 1], image[y - 1][x], image[y - 1][x - 1]
    return float(left + above - corner), 2.5 + (abs(left - corner) + abs(above - corner)) / 12


def received(decode: Callable[[list[float], list[float]], Iterable[int]]) -> tuple[list[Image], float]:
    """Returns all images, and the seconds of the calls without the first one. ``decode`` gets means and deviations."""
    images, times = [[[0] * SIDE for _ in range(SIDE)] for _ in range(IMAGES)], list[float]()
    for x, y in PLACES:
        guesses = [guess(it, x, y) for it in images]
        begun = perf_counter()
        pixels = decode([mean for mean, _ in guesses], [std for _, std in guesses])
        times.append(perf_counter() - begun)
        for image, pixel in zip(images, pixels):
            image[y][x] = int(pixel)
    return images, sum(times[1:])


def main(arguments: list[str]) -> None:
    """Runs the example and prints its line. With --picture, writes the picture too."""
    dice = Random(9)
    images = [rings(dice) for _ in range(IMAGES)]
    rows = [[it[y][x] for x, y in PLACES] for it in images]
    guesses = [[guess(it, x, y) for x, y in PLACES] for it in images]
    means, stds = ([[it[k] for it in row] for row in guesses] for k in range(2))

    coders, alone = AnsCoders(IMAGES), [AnsCoder() for _ in range(IMAGES)]
    coders.encode_reverse(rows, PIXELS, means, stds)
    for coder, row, mean, std in zip(alone, rows, means, stds):
        coder.encode_reverse(row, PIXELS, mean, std)
    bits, same = 32 * coders.num_words() / IMAGES / len(PLACES), list(coders) == alone

    found, taken = received(lambda means, stds: coders.decode(PIXELS, means, stds))
    others, longer = received(lambda *given: [it.decode(PIXELS, *one) for it, one in zip(alone, zip(*given))])
    back = found == others == images
    print(f"{IMAGES} images come back: {back}; {bits:.3f} bits a pixel; the words of {IMAGES} single coders: {same}")
    print(f"a call for {IMAGES} pixels takes {taken / longer:.2f} of the time of {IMAGES} calls", file=sys.stderr)

    strips = [images[k : k + ACROSS] for k in range(0, IMAGES, ACROSS)]
    tall = [[it for image in strip for it in image[y]] for strip in strips for y in range(SIDE)]
    title = f"The images: {bits:.2f} bits per pixel"
    draw(lambda axes: axes.imshow(tall, cmap="gray"), arguments, title, "column, in pixels", "row, in pixels")


if __name__ == "__main__":
    main(sys.argv[1:])
