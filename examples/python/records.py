"""Random access: many short records, of which any is read alone.

A store has 2^20 symbols at most, so there is one for each so many records. A look-up reads the words of its record
and no others.

usage: records.py [COUNT] [--picture FILE]
"""

from __future__ import annotations

import sys
from random import Random
from time import perf_counter

from constriction.store import Store
from constriction.stream.model import Categorical
from picture import draw

LENGTH, AT_A_TIME = 8, 100_000
WEIGHTS = [40, 20, 10, 10, 8, 6, 4, 2]
MODEL = Categorical(WEIGHTS)


def main(arguments: list[str]) -> None:
    """Runs the example and prints its line. With --picture, writes the picture too."""
    count = int(arguments[0]) if arguments and arguments[0].isdigit() else 20_000
    dice = Random(6)
    records = [dice.choices(range(len(WEIGHTS)), WEIGHTS, k=LENGTH) for _ in range(count)]
    stores = [Store.build(records[i : i + AT_A_TIME], MODEL) for i in range(0, count, AT_A_TIME)]
    size = sum(4 * len(it.words) for it in stores)

    times = []
    for place in [dice.randrange(count) for _ in range(1000)]:
        begun = perf_counter()
        record = stores[place // AT_A_TIME][place % AT_A_TIME]
        times.append(perf_counter() - begun)
        assert list(record) == records[place]
    print(
        f"{count} records of {LENGTH} symbols in {size} bytes, {8 * size / count / LENGTH:.3f} bits a symbol; 1000 looked up, each right"
    )
    print(f"{1e6 * sum(times) / len(times):.0f} microseconds each", file=sys.stderr)
    later = [1e6 * it for it in times[1:]]
    name = "microseconds per look-up, without the first one"
    draw(lambda axes: axes.hist(later, bins=50), arguments, "Look-ups of records", name, "look-ups")


if __name__ == "__main__":
    main(sys.argv[1:])
