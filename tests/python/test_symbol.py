"""Codewords: Huffman trees and Exp-Golomb, in queues and stacks."""

from __future__ import annotations

import doctest
import pickle
import random
import time
import unittest
from array import array

import constriction.symbol
import definitions
from constriction import errors
from constriction.symbol import (
    DecoderHuffmanTree,
    EncoderHuffmanTree,
    ExpGolomb,
    QueueDecoder,
    QueueEncoder,
    StackCoder,
)


def canonical_codewords(lengths: list[int]) -> list[str]:
    """Returns the codewords of these lengths: numbers that count up, shorter ones first, then by symbol."""
    wanted, number, before = [""] * len(lengths), 0, 0
    for length, symbol in sorted(zip(lengths, range(len(lengths)))):
        number, before = number << length - before, length
        wanted[symbol] = format(number, f"0{length}b") if length else ""
        number += 1
    return wanted


class Codewords(unittest.TestCase):
    """Codebooks in queues and stacks."""

    def test_docstrings(self) -> None:
        self.assertEqual(doctest.testmod(constriction.symbol).failed, 0)

    def test_golomb_rows(self) -> None:
        """Exp-Golomb codewords have expected words."""
        encoder = QueueEncoder()
        encoder.encode([0, 5, 7], ExpGolomb())
        self.assertEqual(encoder.get_compressed(), ([537], 13))
        for number, words in (((1 << 32) - 1, [0, 1, 0]), ((1 << 32) - 2, [1 << 31, (1 << 31) - 1])):
            encoder = QueueEncoder()
            encoder.encode_symbol(number, ExpGolomb())
            self.assertEqual(encoder.get_compressed()[0], words)
            self.assertEqual(encoder.get_decoder().decode_symbol(ExpGolomb()), number)
        self.assertEqual(QueueDecoder([4294967295]).decode(ExpGolomb(), 32), [0] * 32)
        text = r"^The compressed data ended before the current codeword was complete\.$"
        with self.assertRaisesRegex(errors.OutOfDataError, text):
            QueueDecoder([4294967295]).decode(ExpGolomb(), 33)
        text = r"^Invalid codeword for this codebook: Invalid Exp-Golomb codeword\.$"
        with self.assertRaisesRegex(errors.InvalidDataError, text):
            QueueDecoder([0, 0]).decode(ExpGolomb())
        with self.assertRaises(errors.ImpossibleSymbolError):
            QueueEncoder().encode(1 << 32, ExpGolomb())

    def test_huffman_rows(self) -> None:
        """Huffman trees have expected codewords."""
        rows = (
            ([2, 2, 4, 1, 1], "00 01 11 100 101"), ([2, 1], "1 0"), ([1], ""), ([1, 1, 2], "10 11 0"), ([0, 0, 0], "10 11 0"),
            ([1, 1, 2, 3, 5], "1110 1111 110 10 0"), ([255, 0], "1 0"),
        )  # fmt: skip
        for weights, codewords in rows:
            encoder = QueueEncoder()
            encoder.encode(range(len(weights)), EncoderHuffmanTree(weights))
            bits = codewords.replace(" ", "")
            self.assertEqual(encoder.get_compressed(), (definitions.queue_words(bits), len(bits)))
        with self.assertRaisesRegex(errors.WrongWeightsError, "^expected at least one weight, got none$"):
            EncoderHuffmanTree([])
        with self.assertRaisesRegex(
            errors.WrongWeightsError, r"^expected weights with a sum below 2\^32, got a greater sum$"
        ):
            DecoderHuffmanTree([(1 << 32) - 1, 1])
        with self.assertRaises(errors.ImpossibleSymbolError):
            QueueEncoder().encode([0, 5], EncoderHuffmanTree([2, 2, 4, 1, 1]))
        self.assertEqual(EncoderHuffmanTree([0.3, 0.2, 0.5]).num_symbols(), 3)

    def test_stack_rows(self) -> None:
        """Stacks of bits have expected words."""
        equal = EncoderHuffmanTree([1, 1])
        for symbols, words in (([1], [3]), ([1] * 32, [4294967295, 1]), ([], [1])):
            coder = StackCoder()
            coder.encode_reverse(symbols, equal)
            self.assertEqual(coder.get_compressed(), (words, len(symbols)))
        self.assertEqual(StackCoder([12]).decode(DecoderHuffmanTree([1, 1]), 3), [1, 0, 0])
        with self.assertRaises(errors.InvalidDataError):
            StackCoder([7, 0]).decode(DecoderHuffmanTree([1, 1]))

    def test_lists_beside_the_definitions(self) -> None:
        """Random lists have the words of the definitions, and come back."""
        dice = random.Random(9)
        for count in (0, 1, 5, 300, *[32] * 500):
            bound = dice.choice((1, 2, 5, 17, 1000))
            weights = [dice.randrange(bound) for _ in range(dice.randrange(1, 33))]
            symbols = [dice.randrange(len(weights)) for _ in range(count)]
            numbers = [dice.choice((0, 1, 5, (1 << 32) - 1, dice.randrange(1 << 32))) for _ in range(count)]
            codewords = definitions.huffman_codewords(weights)
            for encoder_book, decoder_book, given, bits in (
                (EncoderHuffmanTree(weights), DecoderHuffmanTree(weights), symbols, [codewords[it] for it in symbols]),
                (ExpGolomb(), ExpGolomb(), numbers, [definitions.golomb_codeword(it) for it in numbers]),
            ):
                queue, stack = QueueEncoder(), StackCoder()
                queue.encode(array("q", given), encoder_book)
                stack.encode_reverse(given, encoder_book)
                whole = "".join(bits)
                self.assertEqual(queue.get_compressed(), (definitions.queue_words(whole), len(whole)))
                turned = "".join(it[::-1] for it in reversed(bits))
                self.assertEqual(stack.get_compressed(), (definitions.stack_words(turned), len(whole)))
                for decoder in (queue.get_decoder(), StackCoder(stack.get_compressed()[0])):
                    self.assertEqual(decoder.decode(decoder_book, count // 2), given[: count // 2])
                    self.assertEqual(decoder.decode(decoder_book, count - count // 2), given[count // 2 :])

    def test_codebooks_that_change(self) -> None:
        """Symbols of several codebooks in one coder come back."""
        dice = random.Random(12)
        trees = [EncoderHuffmanTree([1]), EncoderHuffmanTree([2, 2, 4, 1, 1]), EncoderHuffmanTree([3, 2])]
        queue, stack, kept, bits = QueueEncoder(), StackCoder(), [], ""
        for _ in range(2000):
            book = dice.choice([*trees, ExpGolomb()])
            number = dice.randrange(1000) if isinstance(book, ExpGolomb) else dice.randrange(book.num_symbols())
            queue.encode_symbol(number, book)
            stack.encode_symbol(number, book)
            kept.append((number, book))
            codewords = [definitions.golomb_codeword(number)] if isinstance(book, ExpGolomb) else None
            bits += codewords[0] if codewords else definitions.huffman_codewords(list(book._weights))[number]
        words, count = queue.get_compressed()
        self.assertEqual((words, count), (definitions.queue_words(bits), len(bits)))
        decoder = QueueDecoder(words)
        for number, book in kept:
            self.assertEqual(decoder.decode_symbol(book), number)
        for number, book in reversed(kept):
            self.assertEqual(stack.decode_symbol(book), number)
        self.assertTrue(stack.is_empty())

    def test_bits_back_on_a_stack(self) -> None:
        """Bits back on a stack of bits restores the stack."""
        posterior, prior, likelihood = (EncoderHuffmanTree(it) for it in ([1, 1], [3, 1], [1, 2, 4]))
        stack = StackCoder()
        stack.encode_reverse([1, 0, 1, 1, 0, 1], ExpGolomb())
        before = stack.get_compressed()
        latent = stack.decode(posterior)
        stack.encode_reverse(2, likelihood)
        stack.encode_reverse(latent, prior)
        receiver = StackCoder(stack.get_compressed()[0])
        latent = receiver.decode(prior)
        self.assertEqual(receiver.decode(likelihood), 2)
        receiver.encode_reverse(latent, posterior)
        self.assertEqual(receiver.get_compressed(), before)

    def test_long_lists_that_end_too_early(self) -> None:
        """A decode past the end is refused, and the coder stays unchanged."""
        tree = DecoderHuffmanTree([1, 1])
        encoder = QueueEncoder()
        encoder.encode([0] * 100, tree)
        words, bits = encoder.get_compressed()
        decoder = QueueDecoder(words)
        decoder.decode_symbol(tree)
        with self.assertRaises(errors.OutOfDataError):
            decoder.decode(tree, 128)
        self.assertEqual(decoder.decode(tree, 127), [0] * 127)
        self.assertEqual(bits, 100)
        with self.assertRaises(errors.OutOfDataError):
            StackCoder([1 << 31, 1]).decode(tree, 65)
        for symbols in ([0] * 70 + [2], [2]):
            with self.assertRaises(errors.ImpossibleSymbolError):
                encoder.encode(symbols, tree)
        self.assertEqual(encoder.get_compressed(), (words, bits))

    def test_canonical_trees(self) -> None:
        """The codewords are those of the definition: numbers that count up, shorter ones first, then by symbol."""
        dice = random.Random(13)
        for _ in range(200):
            weights = [dice.randrange(1, dice.choice((2, 9, 1 << 12))) for _ in range(dice.randrange(1, 60))]
            tree = EncoderHuffmanTree(weights)
            lengths = tree.code_lengths().tolist()
            self.assertEqual(lengths, [len(it) for it in definitions.huffman_codewords(weights)])
            wanted = canonical_codewords(lengths)
            canonical = EncoderHuffmanTree.from_lengths(tree.code_lengths())
            self.assertIs(type(canonical), EncoderHuffmanTree)
            self.assertEqual(canonical.code_lengths().tolist(), lengths)
            encoder, symbols = QueueEncoder(), [dice.randrange(len(weights)) for _ in range(dice.choice((3, 90)))]
            encoder.encode(symbols, canonical)
            bits = "".join(wanted[it] for it in symbols)
            self.assertEqual(encoder.get_compressed(), (definitions.queue_words(bits), len(bits)))
            found = QueueDecoder(encoder.get_compressed()).decode(
                DecoderHuffmanTree.from_lengths(lengths), len(symbols)
            )
            self.assertEqual(found.tolist(), symbols)
        for wrong in (
            [],
            [1],
            [1, 2],
            [1, 1, 1],
            [0, 1],
            [2, 2, 2],
            [-1],
            [32, 32],
            [*range(1, 46), 45],
            [*range(1, 41), 41],
            [1, 10**30],
            [-(10**30), 1],
        ):
            self.assertRaises(errors.WrongWeightsError, EncoderHuffmanTree.from_lengths, wrong)
        self.assertRaises(TypeError, EncoderHuffmanTree.from_lengths, [1.0, 1.0])
        make: Any = EncoderHuffmanTree.from_lengths
        self.assertRaisesRegex(TypeError, "^expected a list of lengths, got int$", make, 1)

    def test_deep_canonical_trees(self) -> None:
        """Trees with codewords of more than 31 bits, whose weights can't be powers of two below 2^32."""
        dice, made = random.Random(15), 0
        for longest in [31, 44, *(dice.randrange(32, 45) for _ in range(150))]:
            lengths = [*range(1, longest), longest, longest]
            for _ in range(0 if longest == 44 else dice.randrange(9)):
                length = lengths.pop(dice.randrange(len(lengths)))
                lengths += [length + 1] * 2 if length < longest else [length]
            dice.shuffle(lengths)
            try:
                tree = EncoderHuffmanTree.from_lengths(lengths)
            except errors.WrongWeightsError as it:
                self.assertIn("a sum of", str(it))
                self.assertGreater(longest, 31)
                continue
            made += 1
            self.assertEqual(tree.code_lengths().tolist(), lengths)
            wanted, symbols = canonical_codewords(lengths), [dice.randrange(len(lengths)) for _ in range(40)]
            encoder, other, stack = QueueEncoder(), QueueEncoder(), StackCoder()
            encoder.encode(symbols, tree), stack.encode_reverse(symbols, tree)
            for symbol in symbols:
                other.encode(symbol, tree)
            bits = "".join(wanted[it] for it in symbols)
            self.assertEqual(encoder.get_compressed(), (definitions.queue_words(bits), len(bits)))
            self.assertEqual(other.get_compressed(), encoder.get_compressed())
            self.assertEqual(encoder.get_decoder().decode(tree, 40).tolist(), symbols)
            decoder = encoder.get_decoder()
            self.assertEqual([decoder.decode(tree) for _ in symbols], symbols)
            self.assertEqual(stack.decode(tree, 40).tolist(), symbols)
        self.assertGreater(made, 90)

    def test_positions(self) -> None:
        """Seeks go to recorded positions in any order, and a refused position changes nothing."""
        dice, tree = random.Random(14), EncoderHuffmanTree([2, 2, 4, 1, 1])
        encoder, kept = QueueEncoder(), []
        for _ in range(60):
            book, symbols = dice.choice(((tree, [4, 0, 2]), (ExpGolomb(), [dice.randrange(1 << 32)]), (tree, [1] * 80)))
            kept.append((encoder.pos(), book, symbols))
            encoder.encode(symbols, book)
        decoder = QueueDecoder(encoder.get_compressed())
        self.assertEqual(decoder.pos(), 0)
        for place, book, symbols in dice.choices(kept, k=200):
            decoder.seek(place)
            self.assertEqual((decoder.pos(), decoder.decode(book, len(symbols)).tolist()), (place, symbols))
        decoder.seek(encoder.pos())
        for wrong in (-1, encoder.pos() + 1, 1 << 70):
            before = pickle.dumps(decoder)
            self.assertRaises(errors.WrongLengthError, decoder.seek, wrong)
            self.assertEqual(pickle.dumps(decoder), before)
        self.assertRaises(TypeError, decoder.seek, 1.0)
        self.assertRaises(errors.OutOfDataError, decoder.decode, tree)
        for twin in (decoder.clone(), pickle.loads(pickle.dumps(decoder))):
            self.assertEqual((twin, twin.pos()), (decoder, encoder.pos()))
            self.assertRaises(errors.OutOfDataError, twin.decode, tree)

    def test_pairs(self) -> None:
        """The pair that an encoder returns ends with its codewords. The words alone end with the last word."""
        tree, encoder, stack = DecoderHuffmanTree([1, 1]), QueueEncoder(), StackCoder()
        encoder.encode([1, 0, 0], tree), stack.encode_reverse([1, 0, 0], tree)
        for given, count in (
            (encoder.get_compressed(), 3),
            (encoder.get_compressed()[0], 32),
            ([1], 32),
            ((1, 1), 64),
            ([1, 1], 64),
        ):
            decoder = QueueDecoder(given)  # type: ignore[arg-type]
            self.assertEqual(decoder.decode(tree, count)[:3].tolist(), [1, 0, 0])
            self.assertEqual(decoder.pos(), count)
            self.assertRaises(errors.OutOfDataError, decoder.decode, tree)
        for long in (65, 200):
            pair = array("I", [1, 0]), 63
            self.assertRaises(errors.OutOfDataError, QueueDecoder(pair).decode, tree, long)
            self.assertEqual(QueueDecoder(pair).decode(tree, 63).tolist(), [1] + [0] * 62)
        self.assertRaises(errors.WrongLengthError, QueueDecoder, ([1], 33))
        self.assertRaises(ValueError, QueueDecoder, ([1], -1))
        self.assertEqual(StackCoder(stack.get_compressed()), stack)
        self.assertRaises(errors.InvalidDataError, StackCoder, (stack.get_compressed()[0], 4))

    def test_a_symbol_at_a_time_is_linear(self) -> None:
        """The time of decoding symbol by symbol is linear."""

        def seconds(count: int) -> float:
            """Returns the processor time of decoding `count` symbols."""
            encoder = QueueEncoder()
            encoder.encode([5] * count, ExpGolomb())
            decoder = encoder.get_decoder()
            begin = time.process_time()
            for _ in range(count):
                decoder.decode_symbol(ExpGolomb())
            return time.process_time() - begin

        few = min(seconds(2000) for _ in range(3))
        # Quadratic would be 16 times more. A busy machine may need another run.
        self.assertTrue(any(seconds(32000) < 16 * few * 4 for _ in range(3)))


if __name__ == "__main__":
    unittest.main()
