"""Batches of stack coders as wholes, after calls that are refused, interrupted, or made from inside another call.

The calls are random, as those of test_whole.py. A batch has a twin that gets only the successful calls.
"""

from __future__ import annotations

import unittest
from array import array
from collections.abc import Callable, Iterator
from typing import Any

import definitions as by
import test_whole

from constriction.stream.model import (
    Categorical, CustomModel, Model, QuantizedGaussian, QuantizedMixture, Uniform, WeightTable,
)  # fmt: skip
from constriction.stream.stack import AnsCoders, SmallAnsCoders
from test_whole import Change, Interrupt, Number, interrupted, twin_of, using

#: The number of calls that are refused, interrupted, or made from inside another call.
CALLS = 4_000
FAMILY = QuantizedGaussian(-9, 9)


def rows_of(numbers: Any, length: int) -> list[Any]:
    """Returns a flat list as rows of this length."""
    return [list(numbers[i : i + length]) for i in range(0, len(numbers), length)]


class Lanes(test_whole.Case):
    """Batches of stack coders."""

    make: Any = AnsCoders
    forms: tuple[Callable[[Any], Any], ...] = (list, list, tuple, iter)
    forms_of_parameters = forms

    def made(self) -> Any:
        """Returns a batch of 2 to 7 coders with words, from which some symbols are decoded."""
        dice = self.dice
        self.coders = dice.randrange(2, 8)
        words = [[dice.randrange(1, by.WORD) for _ in range(dice.randrange(12))] for _ in range(self.coders)]
        batch = self.make.from_compressed(words)
        batch.decode(Uniform(300), amt=dice.randrange(9))
        return batch

    def recorded(self, coder: Any, before: int) -> None:
        """Does nothing, because a batch has no positions."""

    def each(self, count: int) -> tuple[Model, list[list[Any]], list[int]]:
        """Does the same as for one coder, but all rows of a parameter have one length."""
        model, given, symbols = super().each(count)
        if type(model) not in (WeightTable, Categorical):
            return model, given, symbols
        dice, width = self.dice, self.dice.choice((1, 2, 3))
        if type(model) is WeightTable:
            rows = [by.random_weights(dice, width) for _ in range(count)]
            return model, [rows], [by.random_symbol(dice, it) for it in rows]
        rows = [[dice.randrange(1, 9) for _ in range(width + 1)] for _ in range(count)]
        return Categorical(perfect=dice.random() < 0.5), [rows], [dice.randrange(width + 1) for _ in rows]

    def change(self, encodes: bool) -> Change:
        """Returns a valid call for one symbol of each coder, or for a row of symbols."""
        dice, length = self.dice, self.dice.choice((1, 1, 2, 3, 5))
        count, by_rows = self.coders * length, length > 1 or dice.random() < 0.3

        def shaped(numbers: Any) -> Any:
            return rows_of(numbers, length) if by_rows else numbers

        form, form_of_parameters = dice.choice(self.forms), dice.choice(self.forms_of_parameters)
        if dice.random() < 0.4:
            model, known = self.fixed()
            if not encodes:
                return lambda it: it.decode(model, amt=length) if by_rows else it.decode(model)
            symbols = [dice.choice(known) for _ in range(count)]
            if not by_rows and dice.random() < 0.3:
                return lambda it: it.encode_reverse(array("q", symbols), model)
            return lambda it: it.encode_reverse(form(shaped(symbols)), model)
        model, given, symbols = self.each(count)
        if not encodes:
            return lambda it: it.decode(model, *(form_of_parameters(shaped(numbers)) for numbers in given))
        return lambda it: it.encode_reverse(
            form(shaped(symbols)), model, *(form_of_parameters(shaped(numbers)) for numbers in given)
        )

    def refused(self) -> Change:
        """Returns a call that raises an exception, often only because of the last coder."""
        dice, n, half = self.dice, self.coders, by.PRECISION // 2
        (model, known), means, zeros = self.fixed(), [0.5] * n, [0] * n
        first: list[Any] = [dice.choice(known) for _ in range(n - 1)]
        good, bad = known[0], max(known) + 1 if type(model) is not WeightTable else 5
        pairs: list[Any] = [[number, number] for number in first]

        def ends() -> Iterator[int]:
            yield from first
            raise KeyError("no more")

        encodes: list[tuple[Any, ...]] = [
            ([*first, bad], model), ([*pairs, [good, bad]], model), ([*first, 1.5], model), (ends(), model),
            # Wrong shapes.
            (first, model), ([*first, good, good], model), (good, model), ([], model), (pairs, model), ([*pairs, [good]], model),
            (zeros, FAMILY, [0.5] * (n + 1), 2.0), (zeros, FAMILY, rows_of(means * 2, 2), rows_of(means * 2, 2)), (rows_of(zeros * 2, 2), FAMILY, [0.5] * (2 * n + 1), 2.0),
            (zeros, FAMILY, [0.5] * (n + 1), [0.5] * (n + 1)), (zeros, FAMILY, [], []), (zeros, QuantizedMixture(FAMILY), *[[[0.5]] * (n + 1)] * 3), (zeros, QuantizedMixture(FAMILY), *[[]] * 3),
            # Wrong models, all of them or the last one.
            (zeros, WeightTable([5])), (zeros, FAMILY, means, -1.0), (zeros, FAMILY, means, [*means[1:], 0.0]), ([*zeros[1:], 10], FAMILY, means, means),
            ([*zeros[1:], 2], WeightTable(), [[half, half]] * n), (zeros, WeightTable(), [*[[half, half]] * (n - 1), [half, 1]]),
            (zeros, WeightTable(), [*[[half, half]] * (n - 1), [2 * half]]), (zeros, FAMILY), (zeros, 3),
        ]  # fmt: skip
        decodes: list[tuple[tuple[Any, ...], dict[str, Any]]] = [
            ((WeightTable([5]),), {}), ((model,), {"amt": -1}), ((model,), {"amt": 1.5}), ((FAMILY, means, means), {"amt": 1}), ((FAMILY,), {}), ((3,), {}),
            ((FAMILY, means, [*means[1:], 0.0]), {}), ((FAMILY, [0.5] * (n + 1), 2.0), {}), ((WeightTable(), [*[[half, half]] * (n - 1), [2 * half]]), {}),
        ]  # fmt: skip
        if dice.random() < 0.7:
            given = dice.choice(encodes)
            return lambda it: it.encode_reverse(*given)
        arguments, named = dice.choice(decodes)
        return lambda it: it.decode(*arguments, **named)

    def from_inside(self, inner: Change) -> tuple[Callable[[list[Any]], Change], Change]:
        """Returns a call whose last argument, or whose model, uses the batch, and the same call without."""
        ones, means = [1] * (self.coders - 1), [2.0] * (self.coders - 1)

        def number(of: float, coder: Any, raised: Any) -> Any:
            return of if raised is None else Number(of, lambda: using(inner, coder, raised))

        def model(coder: Any, raised: Any) -> Model:
            """Returns a model whose distribution function uses the batch."""

            def cdf(x: float) -> float:
                if raised is not None:
                    using(inner, coder, raised)
                return (x + 4) / 8

            return CustomModel(cdf, None, -4, 4)

        calls: list[Callable[[Any, Any], Any]] = [
            lambda it, raised: it.encode_reverse([*ones, 3], model(it, raised)), lambda it, raised: it.decode(model(it, raised)),
            lambda it, raised: it.encode_reverse([*ones, number(2, it, raised)], Uniform(9)), lambda it, raised: it.decode(Uniform(9), amt=number(2, it, raised)),
            lambda it, raised: it.encode_reverse([*ones, 4], FAMILY, [*means, 0.5], [*means, number(2.0, it, raised)]),
            lambda it, raised: it.decode(FAMILY, [*means, number(3.0, it, raised)], [*means, 0.5]),
        ]  # fmt: skip
        call = self.dice.choice(calls)
        return lambda raised: lambda it: call(it, raised), lambda it: call(it, None)


class SmallLanes(Lanes):
    make = SmallAnsCoders


class WholeLanes(test_whole.Whole):
    """Random calls of batches."""

    kinds, calls = (Lanes,), CALLS

    def test_each_event(self) -> None:
        """Calls that widen the rows of words, interrupted at each of their events, one after another."""
        wide, rare, pair = Uniform(1 << 12), WeightTable([1, by.PRECISION - 1]), [1, by.PRECISION - 1]
        calls: list[Change] = [
            lambda it: it.encode_reverse([0, 0, 0], rare), lambda it: it.encode_reverse(rows_of([0] * 12, 4), rare),
            lambda it: it.encode_reverse([9] * 3, FAMILY, [-9.0] * 3, [0.5] * 3), lambda it: it.encode_reverse([0] * 3, WeightTable(), [pair] * 3),
            lambda it: it.encode_reverse([9] * 3, QuantizedMixture(FAMILY), [[1.0]] * 3, [[-9.0]] * 3, [[0.5]] * 3),
            lambda it: it.decode(wide), lambda it: it.decode(wide, amt=9), lambda it: it.decode(WeightTable(), [pair] * 3),
            lambda it: it.decode(FAMILY, rows_of([0.5] * 12, 4), rows_of([2.5] * 12, 4)), lambda it: it.clear(),
        ]  # fmt: skip
        stopped = 0
        for change in calls:
            place = 0
            while place >= 0:
                place += 1
                coders = AnsCoders.from_compressed([[1 << 20] * 9, [5, 1 << 20, 7], [9] * 9])
                twin, after = twin_of(coders), twin_of(coders)
                change(after)
                try:
                    interrupted(lambda: change(coders), place)
                    place = -1
                except Interrupt:
                    stopped += 1
                if self.alike(coders, twin, after) is twin:
                    change(coders)
                self.alike(coders, after)
        self.assertGreater(stopped, 300)


class SmallWholeLanes(WholeLanes):
    """The same for words of 16 bits."""

    kinds, calls, test_each_event = (SmallLanes,), CALLS // 4, None  # type: ignore[assignment]

    def setUp(self) -> None:
        super().setUp()
        by.at_size(16, 12)
        self.addCleanup(by.at_size, 32, 24)


if __name__ == "__main__":
    unittest.main()
