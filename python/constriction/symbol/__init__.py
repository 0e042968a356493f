"""Codewords of whole bits, in words of 32 bits.

Each symbol can have a codebook of its own. The C functions encode and decode whole lists with one codebook. This
package uses them for long lists. For single symbols it computes codewords in Python, and compares the codewords of a
tree with those of the C functions. Python code keeps the positions of the codewords.

>>> tree = EncoderHuffmanTree([2, 2, 4, 1, 1])
>>> encoder = QueueEncoder()
>>> encoder.encode([3, 0, 2], tree)
>>> QueueDecoder(encoder.get_compressed()).decode(DecoderHuffmanTree([2, 2, 4, 1, 1]), 3).tolist()
[3, 0, 2]
"""

from . import exp_golomb, huffman
from .coders import QueueDecoder, QueueEncoder, StackCoder
from .exp_golomb import ExpGolomb
from .huffman import DecoderHuffmanTree, EncoderHuffmanTree

__all__ = [
    "DecoderHuffmanTree",
    "EncoderHuffmanTree",
    "ExpGolomb",
    "QueueDecoder",
    "QueueEncoder",
    "StackCoder",
    "exp_golomb",
    "huffman",
]
