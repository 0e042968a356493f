"""A file of lines as a stream of bits: numbers as Exp-Golomb codewords, letters as codewords of a Huffman tree.

The stream begins with the length of each letter's codeword, which is all that the receiver needs for the canonical
tree. An index has the bit at which each line begins, so a line is read alone.
"""

from __future__ import annotations

import sys
from collections import Counter
from math import log2
from random import Random

from constriction.symbol import DecoderHuffmanTree, EncoderHuffmanTree, ExpGolomb, QueueDecoder, QueueEncoder
from picture import draw

LETTERS, LINES = "abdegiklmnorstu .", 400
GOLOMB = ExpGolomb()


def made_up_lines() -> list[str]:
    """Lines of words of syllables, each line with a dot at its end."""
    dice, lines = Random(7), []
    for _ in range(LINES):
        counts = [dice.randint(1, 3) for _ in range(6)]
        words = ["".join(dice.choice(it) for it in ("bdgklmnrst", "aaaeeiou") * count) for count in counts]
        lines.append(" ".join(words) + ".")
    return lines


def main(arguments: list[str]) -> None:
    """Runs the example and prints its line. With --picture, writes the picture too."""
    lines = made_up_lines()
    counts = Counter("".join(lines))
    lengths = EncoderHuffmanTree([counts[it] for it in LETTERS]).code_lengths()
    tree = EncoderHuffmanTree.from_lengths(lengths)

    encoder, index = QueueEncoder(), []
    encoder.encode([len(LETTERS), *lengths], GOLOMB)
    head = encoder.pos()
    for line in lines:
        index.append(encoder.pos())
        encoder.encode(len(line), GOLOMB)
        encoder.encode([LETTERS.index(it) for it in line], tree)

    decoder = QueueDecoder(encoder.get_compressed())
    found = DecoderHuffmanTree.from_lengths(decoder.decode(GOLOMB, decoder.decode(GOLOMB)))

    def read(i: int) -> str:
        decoder.seek(index[i])
        return "".join(LETTERS[it] for it in decoder.decode(found, decoder.decode(GOLOMB)))

    places = list(range(LINES))
    Random(8).shuffle(places)
    right = all(read(i) == lines[i] for i in places)
    size = sum(counts.values())
    entropy = -sum(it / size * log2(it / size) for it in counts.values())
    bits = (encoder.pos() - head) / size
    text = f"{bits:.3f} bits a letter with the lengths of lines, entropy {entropy:.3f}"
    print(f"lines come back in any order: {right}; {text}; {head} bits for the tree")

    pairs = sorted(zip(lengths.tolist(), LETTERS), reverse=True)
    names = [it.replace(" ", "space") for _, it in pairs]
    widths = [it for it, _ in pairs]
    draw(lambda axes: axes.barh(names, widths), arguments, "Codewords of letters", "length, in bits", "letter")


if __name__ == "__main__":
    main(sys.argv[1:])
