"""Random lists, compared with the program `constriction` if it is built. CONSTRICTION_PROGRAM can name its path."""

from __future__ import annotations

import os
import random
import subprocess
import unittest
from pathlib import Path

import definitions
from constriction.stream.chain import ChainCoder
from constriction.stream.model import WeightTable
from constriction.stream.queue import RangeDecoder, RangeEncoder
from constriction.stream.stack import AnsCoder
from constriction.symbol import ExpGolomb, QueueEncoder

TOP = Path(__file__).resolve().parents[2]
PROGRAM = Path(os.environ.get("CONSTRICTION_PROGRAM", TOP / "crates/constriction_cli/out/constriction_cli"))


def answers(command: str, *lines: list[int]) -> list[list[int]]:
    """Returns the lines that the program prints for these lines."""
    said = "".join(" ".join(map(str, it)) + "\n" for it in lines)
    ran = subprocess.run([PROGRAM, command], input=said, capture_output=True, text=True, check=True)
    return [list(map(int, it.split())) for it in ran.stdout.splitlines()]


@unittest.skipUnless(os.access(PROGRAM, os.X_OK), f"the program is not built: there is no {PROGRAM}")
class BesideTheProgram(unittest.TestCase):
    """Random lists, compared with the program."""

    def test_lists(self) -> None:
        """The program has the words and symbols of the stack coder and the range coder."""
        dice = random.Random(10)
        for count in (0, 1, 2, 7, 50, 500):
            weights = definitions.random_weights(dice, 9)
            symbols = [definitions.random_symbol(dice, weights) for _ in range(count)]
            model = WeightTable(weights)
            coder, encoder = AnsCoder(), RangeEncoder()
            coder.encode_reverse(symbols, model)
            encoder.encode(symbols, model)
            self.assertEqual([list(coder.get_compressed())], answers("ans-encode", weights, symbols))
            self.assertEqual([list(encoder.get_compressed())], answers("range-encode", weights, symbols))

            words = [dice.randrange(1 << 31) for _ in range(count + 3)] + [1]
            found = AnsCoder(words).decode(model, count)
            self.assertEqual([list(found)], answers("ans-decode", weights, [count, *words]))
            found = RangeDecoder(words).decode(model, count)
            self.assertEqual([list(found)], answers("range-decode", weights, [count, *words]))
            chain = ChainCoder(words)
            found = chain.decode(model, count)
            self.assertEqual(
                [list(it) for it in (found, *chain.get_remainders())], answers("chain-split", weights, [count, *words])
            )

    def test_codewords(self) -> None:
        """The program has the words of Exp-Golomb codewords."""
        dice = random.Random(11)
        numbers = [dice.choice((0, 3, (1 << 32) - 1, dice.randrange(1 << 32))) for _ in range(200)]
        encoder = QueueEncoder()
        encoder.encode(numbers, ExpGolomb())
        said = " ".join(map(str, numbers)) + "\n"
        ran = subprocess.run([PROGRAM, "golomb"], input=said, capture_output=True, text=True, check=True)
        self.assertEqual(encoder.get_compressed()[0], list(map(int, ran.stdout.splitlines()[1].split())))


if __name__ == "__main__":
    unittest.main()
