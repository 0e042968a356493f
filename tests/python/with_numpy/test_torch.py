"""Tensors of torch as symbols, parameters and rows, and as memory for answers, in all coders."""

from __future__ import annotations

import unittest
from typing import Any

from constriction.store import Store

from constriction.stream.chain import ChainCoder, SmallChainCoder

from constriction.stream.model import (
    Bernoulli, Categorical, Model, QuantizedCauchy, QuantizedGaussian, QuantizedMixture, Uniform, WeightTable,
)  # fmt: skip
from constriction.stream.queue import RangeDecoder, RangeEncoder, SmallRangeEncoder
from constriction.stream.stack import AnsCoder, AnsCoders, SmallAnsCoder, SmallAnsCoders

from constriction.symbol import EncoderHuffmanTree, ExpGolomb, QueueEncoder, StackCoder

try:
    import torch
except ImportError:
    raise unittest.SkipTest("torch is not there") from None
T: Any = torch
FAMILY, COUNT = QuantizedGaussian(-9, 9), 12


def cases() -> list[tuple[Model, tuple[Any, ...], Any]]:
    """Returns models, a tensor of each parameter of 12 symbols, and the symbols."""
    dice = T.manual_seed(3)
    means, stds = 4 * T.randn(COUNT, generator=dice), 0.25 + 4 * T.rand(COUNT, generator=dice)
    rows, some = T.rand(COUNT, 5, generator=dice), T.randint(0, 5, (COUNT,), generator=dice)
    symbols, weights = means.round().clamp(-9, 9).to(T.int64), T.randint(1, 256, (COUNT, 5), generator=dice)
    weights[:, 4] += (1 << 12) - weights.sum(1)
    of = QuantizedMixture(FAMILY)
    return [
        (FAMILY, (means, stds), symbols), (FAMILY, (means.double(), T.full((1,), 2.5).expand(COUNT)), symbols), (QuantizedCauchy(-9, 9), (means, stds), symbols),
        (QuantizedGaussian(-9, 9, 0.5), (stds,), symbols), (of, (rows[:, :2], rows[:, 2:4] * 8 - 4, rows[:, 3:] + 0.5), symbols),
        (Categorical(), (rows,), some), (Categorical(perfect=False), (rows.half(),), some), (Categorical(), (weights,), some), (WeightTable(), (weights.int(),), some),
        (Bernoulli(), (rows[:, 0],), some % 2), (Uniform(19), (), symbols + 9), (QuantizedGaussian(-9, 9, 0.5, 3.0), (), symbols),
    ]  # fmt: skip


def scaled(model: Model, given: tuple[Any, ...], is_small: bool) -> tuple[Any, ...]:
    """Returns the parameters for a size of words: the weights of a table add up to 2^24 or 2^12."""
    return tuple(it if is_small else it << 12 for it in given) if isinstance(model, WeightTable) else given


def plain(tensors: tuple[Any, ...]) -> list[Any]:
    return [it.tolist() for it in tensors]


class Torch(unittest.TestCase):
    """Calls with tensors do the same as calls with lists of their numbers."""

    def test_lists(self) -> None:
        """All coders, with tensors of several types, views of them, and ``out`` over the memory of a tensor."""
        kinds = (T.int64, T.int32, T.int16, T.int8)
        for place, (model, given, symbols) in enumerate(cases()):
            makers: tuple[Any, ...] = (
                AnsCoder, RangeEncoder, lambda: ChainCoder(range(1, 99)),
                SmallAnsCoder, SmallRangeEncoder, lambda: SmallChainCoder(range(1, 99)),
            )  # fmt: skip
            for number, make in enumerate(makers):
                some, coder, wanted = scaled(model, given, number > 2), make(), make()
                if number % 3 == 2:
                    symbols, start = T.from_numpy(coder.decode(model, *(some or (COUNT,)))), wanted
                    wanted.decode(model, *(plain(some) or (COUNT,)))
                    self.assertEqual(coder, wanted)
                name = "encode" if number % 3 == 1 else "encode_reverse"
                getattr(coder, name)(symbols.to(kinds[place % 4]), model, *some)
                getattr(wanted, name)(symbols.tolist(), model, *plain(some))
                self.assertEqual(coder, wanted)
                decoder = coder.get_decoder() if number % 3 == 1 else coder
                into = T.zeros(2, COUNT, dtype=kinds[number % 4]).t()[:, 1]
                found = decoder.decode(model, *(some or (COUNT,)), out=into.numpy())
                self.assertEqual((into.tolist(), found.tolist()), (symbols.tolist(), symbols.tolist()))
                if number % 3 != 1:
                    self.assertTrue(coder == make() if number % 3 == 0 else coder is not start)

    def test_shapes(self) -> None:
        """Tensors of several dimensions, and one that broadcasts."""
        for model, given, symbols in cases():
            some = scaled(model, given, False)
            shaped = [it.reshape(3, 4, *it.shape[1:]) for it in some]
            encoder, wanted = RangeEncoder(), RangeEncoder()
            encoder.encode(symbols.reshape(3, 4), model, *shaped)
            wanted.encode(symbols.tolist(), model, *plain(some))
            self.assertEqual(encoder, wanted)
            found: Any = RangeDecoder(encoder.get_compressed()).decode(
                model, *shaped, **({} if given else {"amt": (3, 4)})
            )
            self.assertEqual(found.tolist(), symbols.reshape(3, 4).tolist())
        coder = AnsCoder()
        coder.encode_reverse(T.tensor([[1, -2, 3], [4, 0, 9]]), FAMILY, T.tensor([[1.5], [3.0]]), T.tensor(2.0))
        self.assertEqual(coder.decode(FAMILY, T.tensor([[1.5] * 3, [3.0] * 3]), 2.0).tolist(), [[1, -2, 3], [4, 0, 9]])

    def test_single_symbols(self) -> None:
        """Tensors without dimensions, and of one number, are numbers as floats and ints are."""
        for model, given, symbols in cases():
            coder, wanted = AnsCoder([5, 6, 7]), AnsCoder([5, 6, 7])
            some = scaled(model, given, False)
            for i in range(COUNT):
                one = [it[i] for it in some]
                coder.encode_reverse(symbols[i], model, *one)
                wanted.encode_reverse(int(symbols[i]), model, *plain(tuple(one)))
                self.assertEqual(coder, wanted)
            for i in reversed(range(COUNT)):
                found = coder.decode(model, *(it[i] for it in some))
                self.assertEqual((type(found), found), (int, int(symbols[i])))
            self.assertEqual(coder, AnsCoder([5, 6, 7]))

    def test_batches(self) -> None:
        """Many coders, with symbols of shape (n,) and (n, T), and lists of tensors."""
        for make, is_small in ((AnsCoders, False), (SmallAnsCoders, True)):
            for model, given, symbols in cases():
                some, coders, wanted = scaled(model, given, is_small), make(COUNT), make(COUNT)
                coders.encode_reverse(symbols, model, *some)
                wanted.encode_reverse(symbols.tolist(), model, *plain(some))
                self.assertEqual(coders, wanted)
                self.assertEqual(coders.decode(model, *some).tolist(), symbols.tolist())
                shaped, coders, wanted = [it.reshape(3, 4, *it.shape[1:]) for it in some], make(3), make(3)
                coders.encode_reverse(symbols.reshape(3, 4), model, *shaped)
                wanted.encode_reverse(symbols.reshape(3, 4).tolist(), model, *map(T.Tensor.tolist, shaped))
                self.assertEqual(coders, wanted)
                coders.encode_reverse(list(symbols.reshape(3, 4)), model, *map(list, shaped))
                into = T.zeros(3, 4, dtype=T.int16)
                for _ in range(2):
                    coders.decode(model, *shaped, **({} if given else {"amt": 4}), out=into.numpy())
                    self.assertEqual(into.tolist(), symbols.reshape(3, 4).tolist())
                self.assertTrue(coders.is_empty())

    def test_tables(self) -> None:
        """Tensors as the rows of a model, as indexes, as words, as chunks, and as weights and symbols of codebooks."""
        rows, indexes, symbols = T.rand(4, 6), T.tensor([3, 0, 1, 2, 2]), T.tensor([5, 0, 1, 4, 2], dtype=T.uint8)
        model, coder = Categorical(rows), AnsCoder()
        self.assertEqual(model, Categorical(rows.tolist()))
        coder.encode_reverse(symbols, model, indexes)
        words = T.from_numpy(coder.get_compressed().astype("int64"))
        self.assertEqual(AnsCoder(words).decode(model, indexes).tolist(), symbols.tolist())
        self.assertEqual(Categorical(rows[0]).table(), Categorical(rows[0].tolist()).table())
        self.assertEqual(EncoderHuffmanTree(T.tensor([3, 1, 2])).code_lengths().tolist(), [1, 2, 2])
        queue, stack = QueueEncoder(), StackCoder()
        queue.encode(symbols, ExpGolomb()), stack.encode_reverse(symbols, ExpGolomb())
        for decoder in (queue.get_decoder(), stack):
            self.assertEqual(decoder.decode(ExpGolomb(), 5).tolist(), symbols.tolist())
        self.assertEqual(Store.build([symbols, symbols[:0]], Uniform(6))[0].tolist(), symbols.tolist())

    def test_refusals(self) -> None:
        """Tensors that aren't numbers of the wanted kind are refused, and no coder changes."""
        coder, coders, floats = AnsCoder([5, 6, 7]), AnsCoders(2), T.tensor([0.5, 1.5])
        before, asked = coder.clone(), T.tensor([0.5, 1.5], requires_grad=True)
        calls: list[Any] = [
            lambda: coder.encode_reverse(floats, Uniform(9)), lambda: coder.encode_reverse(floats[0], Uniform(9)), lambda: coders.encode_reverse(floats, Uniform(9)),
            lambda: coder.decode(Uniform(9), 2, out=T.zeros(2, dtype=T.int64)), lambda: coder.decode(Uniform(9), 2, dtype=T.int64),
            lambda: coders.decode(Uniform(9), out=T.zeros(2, dtype=T.int64)), lambda: coder.decode(FAMILY, asked, floats), lambda: coders.decode(FAMILY, asked, floats),
            lambda: coder.decode(FAMILY, floats.to(T.complex64), floats), lambda: coder.decode(FAMILY, floats.to_sparse(), floats), lambda: coder.decode(FAMILY, floats, -floats),
            lambda: coders.decode(FAMILY, floats, floats[:0]), lambda: coder.decode(FAMILY, T.tensor([float("nan")]), 1.0),
        ]  # fmt: skip
        for place, call in enumerate(calls):
            with self.assertRaises((TypeError, ValueError, RuntimeError), msg=place):
                call()
            self.assertEqual(coder, before)
            self.assertTrue(coders.is_empty())


if __name__ == "__main__":
    unittest.main()
