"""Calls that the types refuse, each marked, and calls that they accept, for tests/python/test_types.py."""

from array import array

from constriction.stream.chain import ChainCoder
from constriction.stream.model import Categorical, QuantizedGaussian, QuantizedMixture, Uniform, WeightTable
from constriction.stream.queue import RangeEncoder
from constriction.stream.stack import AnsCoder, SmallAnsCoder
from constriction.symbol import EncoderHuffmanTree, QueueDecoder, QueueEncoder

model, family = Uniform(4), QuantizedGaussian(-9, 9)
coder, encoder, tree = AnsCoder(), RangeEncoder(), EncoderHuffmanTree([1, 2])

coder.encode_reverse("abc", model)  # refused
coder.encode_reverse([0.5, 1.5], model)  # refused
coder.encode_reverse(1.0, model)  # refused
coder.encode_reverse(model, [1])  # refused
encoder.encode([1], family, "0", "1")  # refused
encoder.encode([1], [1, 2])  # refused
text: str = coder.decode(model, 3)  # refused
letter: str = coder.decode(model)  # refused
coder.decode(3, model)  # refused
coder.decode(model, amt=1.5)  # refused
coder.decode(model, amt=(2, 1.5))  # refused
line: str = coder.decode(Categorical(), [0.5, 0.5])  # refused
QuantizedGaussian(-9, 9, "0", "1")  # refused
QuantizedGaussian(-9.5, 9)  # refused
Categorical(["0.5", "0.5"])  # refused
Categorical(5)  # refused
lines: list[str] = encoder.get_compressed()  # refused
AnsCoder("words")  # refused
ChainCoder([0.5])  # refused
QueueEncoder().encode(1, model)  # refused
name: str = QueueDecoder([1]).decode(tree)  # refused
SmallAnsCoder("words")  # refused
EncoderHuffmanTree.from_lengths("23")  # refused
QueueDecoder([1]).seek((1, 2))  # refused

one: int = coder.decode(model)
some: list[int] = coder.decode(model, 3).tolist()
near: int = coder.decode(family, 0.5, 2)
far: int = coder.decode(family, 1, 2)
listed = coder.decode(family, [0.5], array("d", [2.0]))
more = listed + 1
total: int = sum(listed)
coder.encode_reverse(listed, family, array("d", [0.5]), (2,))
coder.encode_reverse(range(3), WeightTable(), [[1, 2], [3, 4], (5, 6)])
AnsCoder(encoder.get_compressed())
Categorical([1, 2]), Categorical(array("d", [0.5])), Categorical({"a": 1, "b": 3}.values())
bits: int = QueueDecoder([1]).decode(tree, 3)[0]
row: int = coder.decode(Categorical(), [0.5, 0.5])
mixed: int = coder.decode(QuantizedMixture(family), [0.5, 0.5], (1.0, 2.0), array("d", [2.0, 1.0]))
rows: list[int] = coder.decode(WeightTable(), [[1, 2], [3, 4]]).tolist()
tables, shares = WeightTable([[1, 2], (3, 4)]), Categorical([[0.5, 0.5], [1.0, 2.0]])
coder.encode_reverse([0, 1], tables, [1, 0])
coder.encode_reverse(1, shares, 0)
indexed: list[int] = coder.decode(tables, [1, 0], out=None).tolist()
also: list[int] = coder.decode(model, amt=(2, 3)).tolist()
small: SmallAnsCoder = SmallAnsCoder.from_bytes(b"12")
small.encode_reverse([1, 2], model)
into: list[int] = small.decode(model, 3, out=None).tolist()
place: int = QueueDecoder(QueueEncoder().get_compressed()).pos()
again: EncoderHuffmanTree = EncoderHuffmanTree.from_lengths(tree.code_lengths())
