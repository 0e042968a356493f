"""Calls with one symbol under several models in turn, of which one is interrupted."""

from __future__ import annotations

import unittest

import test_whole as of
from classes_of_families import KINDS
from constriction.stream.model import Categorical, QuantizedMixture, WeightTable
from constriction.stream.stack import AnsCoder


class BetweenModels(unittest.TestCase):
    """Calls with one symbol under several models. They use memory of the coder that keeps a model's numbers."""

    def test_an_interrupt(self) -> None:
        """After a call under another model that is interrupted at one of its events, a model has its own words."""
        one, other, third = (kind(*ends) for kind, ends in zip(KINDS.values(), ((-9, 9), (-300, 300), (-50, 70))))
        mixed, parts = QuantizedMixture(third), ([0.25, 0.75], [1.0, 9.0], [2.0, 0.5])
        calls: list[of.Change] = [
            lambda it: it.encode_reverse(4, one, 0.5, 3.0), lambda it: it.encode_reverse(4, other, 7.0, 2.0), lambda it: it.encode_reverse(4, mixed, *parts),
            lambda it: it.encode_reverse(1, WeightTable(), [1 << 22] * 4), lambda it: it.encode_reverse(1, Categorical(), [3, 1]),
            lambda it: it.encode_reverse(4, mixed, *(it * 2 for it in parts)),
        ]  # fmt: skip
        for first in calls:
            for second in calls:
                made = AnsCoder()
                first(made)
                for place in range(1, of.events(lambda: second(made)) + 9):
                    self.interrupt(first, second, place)

    def interrupt(self, first: of.Change, second: of.Change, place: int) -> None:
        """Makes three calls of a coder, and interrupts the second one. Compares the coder with one that makes whole calls."""
        coder, wanted = AnsCoder(), AnsCoder()
        first(coder), first(wanted)
        try:
            of.interrupted(lambda: second(coder), place)
        except of.Interrupt:
            pass
        if coder != wanted:
            second(wanted)
        first(coder), first(wanted)
        self.assertEqual(coder, wanted)


if __name__ == "__main__":
    unittest.main()
