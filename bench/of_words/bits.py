"""Cases of Exp-Golomb codewords and of Huffman trees, in queues and in stacks. `streams.py` defines a case."""

from __future__ import annotations

import random
from collections.abc import Callable
from functools import partial

import drawn
from library import Ours, Refused
from streams import Case
from verdict import END_OF_BITS, STACK_END, Verdict, longest, numbers, text

#: Returns a given number of symbols of words in an order.
Decode = Callable[[str, list[int], int], list[int]]


def ended(decode: Decode, order: str, words: list[int], many: int) -> tuple[str, str]:
    """Returns the symbols that the words encode and how decoding ended, or no symbols and why the import failed."""
    count, symbols, end = longest(lambda some: decode(order, words, some), many)
    return ("", end) if count < 0 else (text(symbols), end)


def same_end(verdict: Verdict, what: str, ours: tuple[str, str], theirs: str, named: str) -> None:
    """Compares two answers. If `named` is given, theirs may be `invalid` where the bits end."""
    symbols, end = ours
    instead = f"{symbols} invalid" if end == "out" else ""
    verdict.same(what, f"{symbols} {end}".strip(), theirs, named, instead)


def imported(words: list[int]) -> list[int]:
    """Returns words with the bits that their import reads: the lowest set bit of the last word is the end."""
    return [*words[:-1], words[-1] & -words[-1]] if words else []


def requests_of(head: str, order: str, given: str, words: list[int], many: int) -> list[str]:
    """Returns the requests to decode words: from an imported stack, and from a stack with pushed bits."""
    orders = [order, "pushed"] if order == "stack" and words and words[-1] else [order]
    return [f"{head} {it}{given} {text(words)} {many}" for it in orders]


def same_reads(
    verdict: Verdict, decode: Decode, order: str, words: list[int], many: int, answers: list[str], named: str
) -> None:
    """Compares how both read words. A stack also by their import."""
    ours = ended(decode, order, words, many)
    same_end(verdict, "decode", ours, answers[-1], named)
    if len(answers) == 2:
        other = ended(decode, order, imported(words), many)
        if ours == other:
            same_end(verdict, "decode of an import", ours, answers[0], named)
        else:
            same_end(verdict, "decode of an import", other, answers[0], named)
            verdict.named.add(STACK_END)


def golomb(ours: Ours, dice: random.Random, verdict: Verdict) -> Case:
    """Encodes numbers, and each side decodes the other's words. In a third of the cases, both decode random words."""
    order, many, bits = dice.choice(("queue", "stack")), drawn.count(dice), ours.bits
    if dice.randrange(3) == 0:
        words = drawn.words(dice, bits, dice.randrange(6))
        answers = yield requests_of(f"golomb_decode {bits}", order, "", words, many)
        same_reads(verdict, ours.golomb_decode, order, words, many, answers, END_OF_BITS)
        return
    given = [drawn.number(dice, bits) for _ in range(many)]
    words = ours.golomb_encode(order, given)
    reads = requests_of(f"golomb_decode {bits}", order, "", words, many)
    encoded, *answers = yield [f"golomb_encode {bits} {order} {text(given)}", *reads]
    verdict.same("encode", text(words), encoded)
    verdict.same("ours decodes theirs", text(ours.golomb_decode(order, numbers(encoded), many)), text(given))
    same_reads(verdict, ours.golomb_decode, order, words, many, answers, END_OF_BITS)


def huffman(ours: Ours, dice: random.Random, verdict: Verdict) -> Case:
    """Encodes symbols, and each side decodes the other's words. In a third of the cases, both decode random words."""
    order, many, bits = dice.choice(("queue", "stack")), drawn.count(dice), ours.bits
    weights = drawn.tree(dice)
    decode = partial(ours.huffman_decode, weights)
    if dice.randrange(3) == 0:
        words = drawn.words(dice, bits, dice.randrange(6))
        answers = yield requests_of(f"huffman_decode {bits}", order, f" {text(weights)}", words, many)
        same_reads(verdict, decode, order, words, many, answers, "")
        return
    each = dice.randrange(4) == 0
    given = [*range(len(weights))] if each else drawn.symbols(dice, [[1] * len(weights)], many)
    many, head = len(given), f"huffman_encode {bits} {order} {text(weights)} {text(given)}"
    try:
        words = ours.huffman_encode(order, weights, given)
    except Refused as refused:
        (answer,) = yield [head]
        verdict.same("encode", str(refused.args[0]), answer)
        return
    reads = requests_of(f"huffman_decode {bits}", order, f" {text(weights)}", words, many)
    encoded, *answers = yield [head, *reads]
    verdict.same("encode", text(words), encoded)
    if encoded != "impossible":
        verdict.same("ours decodes theirs", text(decode(order, numbers(encoded), many)), text(given))
    same_reads(verdict, decode, order, words, many, answers, "")


CASES = {"Exp-Golomb": (golomb,), "Huffman trees": (huffman,)}
