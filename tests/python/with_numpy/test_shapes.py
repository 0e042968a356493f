"""Symbols, parameters and results of any shape, by numpy's rules of broadcasting."""

from __future__ import annotations

import random
import sys
import unittest
from array import array
from importlib import import_module
from importlib.util import find_spec
from itertools import product
from pathlib import Path
from typing import Any
from unittest import mock

np: Any
try:
    import numpy as np
except ImportError:
    raise unittest.SkipTest("numpy is not there") from None

sys.path.insert(0, str(Path(__file__).resolve().parents[1]))

from constriction import errors
from constriction._sizes import Size
from constriction.stream.chain import ChainCoder

from constriction.stream.model import (
    Bernoulli, Binomial, Categorical, CustomModel, Model, QuantizedCauchy, QuantizedGaussian, QuantizedMixture, Uniform, WeightTable,
)  # fmt: skip
from constriction.stream.queue import RangeDecoder, RangeEncoder
from constriction.stream.stack import AnsCoder
from classes_of_families import KINDS


def orders(table: Any) -> list[Any]:
    """Returns arrays with the same numbers, in memory of several orders."""
    wide = np.zeros((2 * table.shape[0], *table.shape[1:]), dtype=table.dtype)
    wide[::2] = table
    return [table, np.asfortranarray(table), wide[::2], table[::-1].copy()[::-1]]


class Shapes(unittest.TestCase):
    """Arrays of any shape."""

    def setUp(self) -> None:
        self.dice = np.random.default_rng(5)

    def test_a_fixed_model(self) -> None:
        """Symbols of any shape and order of memory have the words of their flat list."""
        model = QuantizedGaussian(-9, 9, 0.5, 3.0)
        for shape in ((2, 3), (2, 3, 4), (1, 5), (4, 1, 2), (0, 3), (7,)):
            table = self.dice.integers(-9, 10, shape)
            wanted, queue = AnsCoder(), RangeEncoder()
            wanted.encode_reverse(table.ravel(), model), queue.encode(table.ravel(), model)
            for kind, some in product(("int64", "int8", ">i4"), orders(table)):
                coder, encoder = AnsCoder(), RangeEncoder()
                coder.encode_reverse(some.astype(kind), model), encoder.encode(some.astype(kind), model)
                self.assertEqual((coder, encoder), (wanted, queue))
                for decoder in (coder, encoder.get_decoder()):
                    found: Any = decoder.decode(model, amt=shape)
                    np.testing.assert_array_equal(found, table)
                    self.assertEqual((found.shape, found.dtype), (shape, np.int64))
            found = wanted.decode(model, shape)  # type: ignore[call-overload]
            np.testing.assert_array_equal(found, table)
        twin = wanted.clone()
        found = wanted.decode(model, amt=())  # type: ignore[call-overload]
        self.assertEqual((type(found), found), (int, twin.decode(model)))

    def cases(self, shape: tuple[int, ...]) -> list[tuple[Model, Any, tuple[Any, ...], int]]:
        """Returns models with parameters of this shape, and symbols, and the number of dimensions of a parameter."""
        dice = self.dice
        means, stds, symbols = dice.uniform(-5, 5, shape), dice.uniform(0.5, 5, shape), dice.integers(-9, 10, shape)
        rows, three = dice.random((*shape, 4)) + 0.01, dice.integers(0, 3, shape)
        mixture = QuantizedMixture([*KINDS.values()][len(shape) % len(KINDS)](-9, 9))
        components = [
            dice.random((*shape, 2)) + 0.1,
            dice.uniform(-5, 5, (*shape, 2)),
            dice.uniform(0.5, 5, (*shape, 2)),
        ]
        step: Any = CustomModel(lambda x, k: min(max((x - k) / 40 + 0.5, 0), 1), None, -9, 9)
        return [
            (QuantizedGaussian(-9, 9), symbols, (means, stds), 0), (QuantizedGaussian(-9, 9, std=2.0), symbols, (means,), 0),
            (QuantizedCauchy(-9, 9), symbols, (means, stds), 0), (step, symbols, (means,), 0), (Bernoulli(), three % 2, (stds / 5,), 0),
            (Uniform(), three, (dice.integers(3, 9, shape),), 0), (Binomial(), three, (dice.integers(3, 9, shape), stds / 5), 0),
            (Categorical(), three, (rows,), 1), (WeightTable(), three, (np.full((*shape, 4), 1 << 22),), 1), (mixture, symbols, tuple(components), 1),
        ]  # fmt: skip

    def test_parameters_of_each_symbol(self) -> None:
        """Parameters of any shape have the words of flat lists."""
        for shape in ((2, 3), (3, 1, 2), (1, 4), (0, 2), (5,)):
            for model, symbols, given, core in self.cases(shape):
                wanted = AnsCoder([5, 6])
                lists = [it.reshape(-1, it.shape[-1]) if core else it.ravel() for it in given]
                wanted.encode_reverse(symbols.ravel(), model, *lists)
                for k in range(4):
                    coder: Any = AnsCoder([5, 6])
                    some = [orders(it)[k] for it in given]
                    coder.encode_reverse(orders(symbols)[-k], model, *some)
                    self.assertEqual(coder, wanted)
                    found = coder.decode(model, *some)
                    np.testing.assert_array_equal(found, symbols)
                    self.assertEqual((found.shape, found.dtype), (shape, np.int64))
                    self.assertEqual(coder, AnsCoder([5, 6]))

    def test_the_other_coders(self) -> None:
        """The range coder and the chain coder return symbols of the same shape."""
        for model, symbols, given, _ in self.cases((3, 2)):
            encoder, chain = RangeEncoder(), ChainCoder(np.arange(5, 50, dtype="uint32"))
            encoder.encode(symbols, model, *given)
            np.testing.assert_array_equal(encoder.get_decoder().decode(model, *given), symbols)
            found: Any = chain.decode(model, *given)
            self.assertEqual(found.shape, (3, 2))
            chain.encode_reverse(found, model, *given)
            self.assertEqual(chain, ChainCoder(np.arange(5, 50, dtype="uint32")))

    def test_axes_of_one(self) -> None:
        """An axis of length 1, a missing axis, and a number are repeated, by numpy's rules."""
        dice = random.Random(7)
        for shape in ((2, 3), (4,), (3, 2, 2)):
            for model, symbols, given, core in self.cases(shape):
                for _ in range(6):
                    cut: list[Any] = []
                    for it in given:
                        axes = tuple(slice(1) if dice.random() < 0.5 else slice(None) for _ in shape)
                        part = it[axes]
                        while part.ndim > core and part.shape[0] == 1 and dice.random() < 0.5:
                            part = part[0]
                        cut.append(
                            float(part)
                            if part.ndim == 0 and dice.random() < 0.5 and type(model) is not Uniform
                            else part
                        )
                    whole = [np.broadcast_to(it, (*shape, it.shape[-1]) if core else shape) for it in cut]
                    coder, wanted = AnsCoder(), AnsCoder()
                    coder.encode_reverse(symbols, model, *cut), wanted.encode_reverse(symbols, model, *whole)
                    self.assertEqual(coder, wanted)
                    common = np.broadcast_shapes(*(np.shape(it)[: np.ndim(it) - core] for it in cut))
                    other: Any = coder.clone().decode(model, *cut)
                    self.assertEqual(np.shape(other), common)
                    np.testing.assert_array_equal(wanted.decode(model, *whole), symbols)

    def test_lists_beside_arrays(self) -> None:
        """Lists, arrays and buffers can be mixed."""
        family, means = QuantizedGaussian(-9, 9), np.array([[0.5, 1.5], [-3.0, 2.0]])
        for stds in (
            [2.0, 3.0],
            (2.0, 3.0),
            array("d", [2.0, 3.0]),
            np.array([2.0, 3.0]),
            memoryview(array("d", [2.0, 3.0])),
        ):
            coder, wanted = AnsCoder(), AnsCoder()
            coder.encode_reverse(np.array([[1, 2], [3, 4]]), family, means, stds)
            wanted.encode_reverse([1, 2, 3, 4], family, means.ravel(), [2.0, 3.0, 2.0, 3.0])
            self.assertEqual(coder, wanted)
            self.assertEqual(coder.decode(family, means, stds).tolist(), [[1, 2], [3, 4]])

    def test_what_offers_an_array(self) -> None:
        """Objects with `__array__` are arrays."""

        class Offers:
            """An object with `__array__`."""

            def __init__(self, of: Any) -> None:
                self.of = np.array(of)
                self.shape = self.of.shape

            def __len__(self) -> int:
                return len(self.of)

            def __array__(self, dtype: Any = None, copy: Any = None) -> Any:
                return self.of

        coder: Any = AnsCoder()
        coder.encode_reverse(Offers([[1, 2]]), QuantizedGaussian(-9, 9), Offers([[0.5, 1.0]]), Offers([[2.0]]))
        self.assertEqual(
            coder.decode(QuantizedGaussian(-9, 9), Offers([[0.5, 1.0]]), Offers([[2.0]])).tolist(), [[1, 2]]
        )

        class OtherShape(Offers):
            """An object with `__array__` whose shape isn't a tuple, as in tensorflow."""

            def __init__(self, of: Any) -> None:
                super().__init__(of)
                self.shape, self.ndim = iter(self.shape), self.of.ndim

        family, rows = QuantizedGaussian(-9, 9), OtherShape([[[1, 2], [3, 1]]])
        coder.encode_reverse(OtherShape([[1, 2]]), family, OtherShape([[0.5, 1.0]]), OtherShape([[2.0]]))
        self.assertEqual(coder.decode(family, Offers([[0.5, 1.0]]), Offers([[2.0]])).tolist(), [[1, 2]])
        coder.encode_reverse(OtherShape([[1, 0]]), Categorical(), rows)
        self.assertEqual(coder.decode(Categorical(), rows).tolist(), [[1, 0]])
        self.assertTrue(coder.is_empty())
        view = memoryview(np.array([[1, 2], [3, 4]]))
        coder.encode_reverse(view, Uniform(5))
        self.assertEqual(coder.decode(Uniform(5), amt=(2, 2)).tolist(), [[1, 2], [3, 4]])

        class Square(np.ndarray):  # type: ignore[misc]
            """An array that keeps two dimensions, as numpy.matrix does."""

            def ravel(self, order: Any = "C") -> Any:
                return super().ravel(order).reshape(1, -1)

        coder.encode_reverse(np.array([[1, 2], [3, 4]]).view(Square), Uniform(5))
        self.assertEqual(coder.decode(Uniform(5), amt=(2, 2)).tolist(), [[1, 2], [3, 4]])

    def test_an_array_alone(self) -> None:
        """An object with `__array__` needs no other method."""

        class Alone:
            """An object with `__array__` alone."""

            def __init__(self, of: Any) -> None:
                self.of = np.array(of)

            def __array__(self, dtype: Any = None, copy: Any = None) -> Any:
                return self.of

        coder: Any = AnsCoder(Alone(np.array([1, 2, 3], dtype="uint32")))
        self.assertEqual(coder, AnsCoder([1, 2, 3]))
        family, means, stds = QuantizedGaussian(-9, 9), Alone([[0.5, 1.0]]), Alone([[2.0]])
        coder.encode_reverse(Alone([[1, 2]]), family, means, stds)
        self.assertEqual(coder.decode(family, means, stds).tolist(), [[1, 2]])
        rows = Alone([[1, 2], [3, 1]])
        coder.encode_reverse(Alone([1, 0]), Categorical(), rows)
        self.assertEqual(coder.decode(Categorical(), rows).tolist(), [1, 0])
        self.assertEqual(WeightTable(Alone([1 << 23, 1 << 23])).table(), WeightTable([1 << 23, 1 << 23]).table())
        self.assertEqual(coder, AnsCoder([1, 2, 3]))

        class Long(Alone):
            """An object with a length that isn't iterable."""

            def __len__(self) -> int:
                return len(self.of)

        for model, numbers in ((Categorical(), [[1, 2], [3, 1]]), (WeightTable(), [[5, (1 << 24) - 5]] * 2)):
            coder.encode_reverse(Long([1, 0]), model, Long(numbers))
            self.assertEqual(coder.decode(model, Long(numbers)).tolist(), [1, 0])
            coder.encode_reverse(1, model, Long(numbers[0]))
            self.assertEqual(coder.decode(model, Long(numbers[0])), 1)
        self.assertEqual(coder, AnsCoder([1, 2, 3]))

    def test_a_float_without_dimensions(self) -> None:
        """An array without dimensions is a parameter of a caller's function if it has a float, and else an amount."""
        spread: Any = CustomModel(lambda x, k=0.5: min(max((x - k) / 40 + 0.5, 0), 1), None, -9, 9)
        coder, wanted = AnsCoder([5, 6, 7]), AnsCoder([5, 6, 7])
        for number in (np.array(2.5), np.array(3.0), np.float32(-1)):
            self.assertEqual(coder.decode(spread, number), wanted.decode(spread, [float(number)])[0])
            self.assertEqual(coder, wanted)
        self.assertEqual(coder.decode(spread, np.array(3)).tolist(), wanted.decode(spread, 3).tolist())
        self.assertRaisesRegex(TypeError, "^expected a number of symbols ", coder.decode, Uniform(3), np.array(3.0))

    def test_types_of_answers(self) -> None:
        """A symbol that doesn't fit its type is refused, and the coder stays unchanged."""
        family, symbols = QuantizedGaussian(-200, 300), np.array([[-3, 7], [100, 0]])
        for kind in ("int8", "int16", ">i4", np.int64, np.dtype("int32")):
            for coder in (AnsCoder(), RangeEncoder()):
                encoder: Any = coder
                (encoder.encode if isinstance(coder, RangeEncoder) else encoder.encode_reverse)(
                    symbols, family, symbols * 1.0, 2.0
                )
                decoder: Any = coder.get_decoder() if isinstance(coder, RangeEncoder) else coder
                found = decoder.decode(family, symbols * 1.0, 2.0, dtype=kind)
                np.testing.assert_array_equal(found, symbols)
                self.assertEqual(found.dtype, np.dtype(kind))
        for kind, wrong in (("uint8", -3), ("int8", 200), ("uint16", -1)):
            coder = AnsCoder([5, 6])
            coder.encode_reverse(
                [1, wrong, 2], Uniform(300) if wrong > 0 else family, *(() if wrong > 0 else ([0.0] * 3, 9.0))
            )
            before = coder.clone()
            given = (3,) if wrong > 0 else ([0.0] * 3, 9.0)
            self.assertRaisesRegex(ValueError, f"^expected symbols that fit {kind}, got {wrong}$", lambda: coder.decode(Uniform(300) if wrong > 0 else family, *given, dtype=kind))  # type: ignore[call-overload]
            self.assertEqual(coder, before)
        self.assertEqual(AnsCoder([5]).decode(Uniform(9), amt=(0, 2), dtype="uint8").shape, (0, 2))  # type: ignore[attr-defined]
        self.assertIs(type(ChainCoder([5, 6, 7, 8]).decode(Uniform(9), dtype="uint8")), int)  # type: ignore[call-overload]
        self.assertRaisesRegex(
            TypeError, "^expected an integer type, got float64$", AnsCoder([5]).decode, Uniform(9), 3, dtype="float64"
        )

    def test_the_callers_own_array(self) -> None:
        """``out`` gets the symbols, whatever its type and the order of its memory."""
        family, symbols, means = (
            QuantizedGaussian(-9, 9),
            np.array([[-3, 7, 1], [9, 0, 2]]),
            np.array([[-2.5, 6.5, 0.0], [8.0, 0.5, 2.0]]),
        )
        rows = np.random.default_rng(3).random((2, 3, 19))
        for kind, (model, given) in product(
            ("int8", "int64", ">i4"), ((family, (means, 2.0)), (Categorical(), (rows,)), (Uniform(19), ()))
        ):
            shift = 0 if model is family else 9
            for out in orders(np.zeros((2, 3), dtype=kind)):
                coder: Any = AnsCoder()
                coder.encode_reverse(symbols + shift, model, *given)
                found = coder.decode(model, *given, out=out) if given else coder.decode(model, amt=(2, 3), out=out)
                self.assertIs(found, out)
                np.testing.assert_array_equal(out, symbols + shift)
        own = np.zeros(4, dtype="uint8")
        coder = AnsCoder()
        coder.encode_reverse([1, 255, 0, 7], Uniform(256))
        self.assertEqual(coder.decode(Uniform(256), 4, out=own).tolist(), [1, 255, 0, 7])

    def test_refusals_of_the_callers_own_array(self) -> None:
        """A wrong array of the caller is refused, and neither the array nor the coder changes."""
        still, masked = np.zeros(3, dtype="int64"), np.ma.array([0, 0, 0], mask=[1, 0, 1], hard_mask=True)
        still.flags.writeable = False
        for kind, message, out, more in (
            (TypeError, "got list", [0, 0, 0], {}), (TypeError, "got float64", np.zeros(3), {}), (ValueError, "writeable", still, {}),
            (TypeError, "got MaskedArray", masked, {}),
            (errors.WrongLengthError, r"of shape \(3,\), got \(2,\)", np.zeros(2, dtype="int64"), {}), (errors.WrongLengthError, r"\(3,\)", np.zeros((3, 1), dtype="int64"), {}),
            (TypeError, "got both", np.zeros(3, dtype="int8"), {"dtype": "int8"}), (ValueError, "that fit int8, got 300", np.full(3, 5, dtype="int8"), {}),
        ):  # fmt: skip
            coder, chain = AnsCoder([5, 6, 7]), ChainCoder([5, 6, 7, 8])
            coder.encode_reverse([1, 300, 2], Uniform(301))
            encoder = RangeEncoder()
            encoder.encode([1, 300, 2], Uniform(301))
            decoders: list[Any] = [coder, encoder.get_decoder()] + [chain] * ("fit" not in message)
            for decoder in decoders:
                before, kept = decoder.clone(), np.array(out)
                self.assertRaisesRegex(kind, message, lambda: decoder.decode(Uniform(301), 3, out=out, **more))
                self.assertEqual(decoder, before)
                np.testing.assert_array_equal(out, kept)
        coder, one = AnsCoder([5, 6, 7]), np.zeros((), dtype="int64")
        self.assertRaisesRegex(TypeError, "for an array of symbols", lambda: coder.decode(Uniform(301), out=one))  # type: ignore[call-overload]
        wrong, some = RangeDecoder([(1 << 32) - 1] * 3), np.full(70_000, 7)
        before = wrong.clone()
        self.assertRaises(
            errors.InvalidDataError, lambda: wrong.decode(WeightTable([1, (1 << 24) - 1]), 70_000, out=some)
        )
        self.assertEqual((wrong, set(some.tolist())), (before, {7}))

    def test_types_of_symbols(self) -> None:
        """Arrays of 8 and of 16 bits go to the C functions of their type, and others to those of 64 bits."""
        model, symbols = WeightTable([1 << 16] * 256), self.dice.integers(0, 256, 70_000)
        for kind, of in (
            ("uint8", "_bytes"),
            ("uint16", "_shorts"),
            ("int64", ""),
            ("int8", ""),
            (">u2", ""),
            ("uint32", ""),
        ):
            some = symbols.astype(kind) if kind != "int8" else (symbols % 128).astype(kind)
            coder, encoder, chain = AnsCoder(), RangeEncoder(), ChainCoder(np.arange(5, 90_000, dtype="uint32"))
            called: list[str] = []
            original = Size.call

            def call(self: Size, name: str, *given: Any, **texts: Any) -> None:
                called.append(name)
                original(self, name, *given, **texts)

            with mock.patch.object(Size, "call", call):
                coder.encode_reverse(some, model), encoder.encode(some, model)
                chain.decode(model, 70_000), chain.encode_reverse(some, model)
                narrow = coder.decode(model, 70_000, dtype=kind), encoder.get_decoder().decode(
                    model, 70_000, dtype=kind
                )
            for found in narrow:
                np.testing.assert_array_equal(found, some)
                self.assertEqual(found.dtype, np.dtype(kind))
            for name in (
                "ans_encode{}_reverse",
                "range_encode{}",
                "chain_encode{}_reverse",
                "ans_decode{}",
                "range_decode{}",
            ):
                self.assertIn(name.format(of), called)

    @unittest.skipUnless(find_spec("torch"), "torch is not there")
    def test_torch(self) -> None:
        """Tensors of torch are arrays."""
        torch: Any = import_module("torch")
        family, symbols = QuantizedGaussian(-9, 9), torch.tensor([[1, -2, 3], [4, 0, 9]])
        means, stds, coder = torch.tensor([[1.5, -2.0, 2.5], [3.0, 0.5, 8.0]]), torch.tensor(2.0), AnsCoder()
        coder.encode_reverse(symbols, family, means, stds)
        coder.encode_reverse(
            symbols[0].to(torch.uint8) % 3, Categorical(), torch.rand(3, 4, generator=torch.manual_seed(1))
        )
        self.assertEqual(
            coder.decode(Categorical(), torch.rand(3, 4, generator=torch.manual_seed(1))).tolist(),
            (symbols[0].to(torch.uint8) % 3).tolist(),
        )
        found: Any = coder.decode(family, means, stds)
        np.testing.assert_array_equal(found, symbols.numpy())
        self.assertTrue(torch.equal(torch.from_numpy(found), symbols))
        coder.encode_reverse(symbols, family, means, stds)
        into = torch.zeros(2, 3, dtype=torch.int16)
        coder.decode(family, means, stds, out=into.numpy())
        self.assertTrue(torch.equal(into, symbols.to(torch.int16)))
        self.assertEqual(Categorical(torch.tensor([0.25, 0.5, 0.25])).table(), Categorical([0.25, 0.5, 0.25]).table())

    def test_views_of_several_dimensions(self) -> None:
        """Views are taken and refused as the arrays of which they are."""
        coder = AnsCoder([5, 6, 7])
        for shape in ((2, 0), (0, 2), (2, 2), (2, 1, 2), (1, 1, 2)):
            for model in (Categorical(perfect=False), Categorical(), WeightTable(), QuantizedGaussian(-9, 9)):
                table, results = np.ones(shape, "int64" if isinstance(model, WeightTable) else "float64"), []
                given = 1 if model.core else 2
                for it in (table, memoryview(table)):
                    for call in ("encode_reverse", "decode"):
                        other = coder.clone()
                        try:
                            first = (0,) if call == "encode_reverse" else ()
                            found = getattr(other, call)(*first, model, *[it] * given)
                            results.append((np.array(found).tolist(), other.pos()))
                        except (TypeError, ValueError) as refused:
                            self.assertEqual(other, coder)
                            results.append((type(refused), ()))
                self.assertEqual(results[:2], results[2:], (shape, model))

    def test_refusals(self) -> None:
        """Shapes that don't fit are refused, and the coder stays unchanged."""
        family, zeros, ones = QuantizedGaussian(-9, 9), np.zeros((2, 3)), np.ones((2, 3))
        words = "operands could not be broadcast together with shapes"
        mixture, symbols = QuantizedMixture(family), np.zeros((2, 3), dtype="int64")
        for call in (
            lambda it: it.decode(family, zeros, ones.T), lambda it: it.encode_reverse(symbols, family, zeros.T, 1.0),
            lambda it: it.encode_reverse(symbols, family, np.zeros((2, 2)), 1.0), lambda it: it.encode_reverse(symbols, Categorical(), np.ones((3, 2, 4))),
            lambda it: it.decode(mixture, np.ones((2, 3)), np.ones((3, 3)), np.ones((3, 3))),
        ):  # fmt: skip
            coder = AnsCoder([5, 6])
            self.assertRaisesRegex(errors.WrongLengthError, words, call, coder)
            self.assertEqual(coder, AnsCoder([5, 6]))
        for call in (
            lambda: AnsCoder().encode_reverse(symbols[0], family, zeros, ones), lambda: AnsCoder().encode_reverse(symbols[0], Categorical(), np.ones((2, 3, 4))),
            lambda: AnsCoder().encode_reverse(symbols[:1], family, zeros, 1.0),
        ):  # fmt: skip
            self.assertRaisesRegex(errors.WrongLengthError, r"^expected symbols of shape \(2, 3\), got ", call)
        for model, text in (
            (Categorical(), "got 0 in row 0"), (WeightTable(), "expected at least one weight, got none in row 0"), (mixture, "without components"),
        ):  # fmt: skip
            nothing = [np.zeros((2, 3, 0), dtype="int64")] * len(model.missing)
            self.assertRaisesRegex(ValueError, text, AnsCoder([5]).decode, model, *nothing)
        for wrong in ((2, -1), (2, 1.5), ("2",), (1 << 30, 1 << 30)):
            self.assertRaises((TypeError, ValueError), AnsCoder([5]).decode, Uniform(3), amt=wrong)


if __name__ == "__main__":
    unittest.main()
