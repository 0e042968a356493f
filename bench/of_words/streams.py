"""Cases of the stack coder, the range coder and the chain coder.

A case is a generator: it yields requests to the Rust crate's program (`bench/baseline/src/bin/words.rs`), gets their
answers, and compares them with ours.
"""

from __future__ import annotations

import random
from collections.abc import Generator

import drawn
from library import Chain, Ours, Refused, Stack
from verdict import CLEAR, INTO_BINARY, Verdict, attempt, longest, numbers, part, text, texts

Case = Generator[list[str], list[str], None]


def ans_exports(ours: Ours, coder: Stack) -> tuple[str, str]:
    """Returns the coder's words, and its words in binary form."""
    words = text(ours.ans_words(coder, "compressed"))
    return words, attempt(lambda: text(ours.ans_words(coder, "binary")))


def same_exports(verdict: Verdict, what: str, ours: tuple[str, str], theirs: list[str]) -> None:
    """Compares our exports with those of `into_compressed`, `into_binary` and `get_binary`."""
    words, binary = ours[0], ours[1].replace("invalid", "no")
    verdict.same(f"{what}, compressed", words, theirs[0])
    verdict.same(f"{what}, binary lent", binary, theirs[2])
    # Of a head of two words just one is below the leading 1, so one zero word is dropped.
    ends_with_zero = binary == "0" or binary.endswith(",0")
    verdict.same(f"{what}, binary", binary, theirs[1], INTO_BINARY if ends_with_zero else "", binary[:-2] or "-")


def ans_encodes(ours: Ours, dice: random.Random, verdict: Verdict) -> Case:
    """Encodes symbols onto random words, and each side decodes them from the other's words."""
    kind, start = dice.choice(("compressed", "binary")), drawn.words(dice, ours.bits, dice.randrange(5))
    many = drawn.count(dice)
    tables = drawn.tables(dice, many, ours.precision)
    symbols = drawn.symbols(dice, tables, many)
    head = f"ans_encode {ours.bits} {kind} {text(start)} {texts(tables)} {text(symbols)}"
    try:
        before = ours.ans(kind, start)
        behind = ours.ans_encode(before, tables, symbols)
    except Refused as refused:
        (answer,) = yield [head]
        verdict.same("encode", str(refused.args[0]), answer)
        return
    exports = ans_exports(ours, behind)
    encoded, decoded = yield [head, f"ans_decode {ours.bits} compressed {exports[0]} {texts(tables)} {many}"]
    theirs = encoded.split()
    if len(theirs) != 3:
        verdict.same("encode", exports[0], encoded)
        return
    same_exports(verdict, "encode", exports, theirs)
    found, *left = decoded.split()
    verdict.same("theirs decodes ours", text(symbols), found)
    same_exports(verdict, "theirs decodes ours", ans_exports(ours, before), left)
    back, rest = ours.ans_decode(ours.ans("compressed", numbers(theirs[0])), tables, many)
    verdict.same("ours decodes theirs", text(back), text(symbols))
    verdict.same("ours decodes theirs, compressed", *(ans_exports(ours, it)[0] for it in (rest, before)))


def ans_decodes(ours: Ours, dice: random.Random, verdict: Verdict) -> Case:
    """Decodes symbols from random words, and each side encodes them back onto the other's words."""
    kind, start = dice.choice(("compressed", "binary")), drawn.words(dice, ours.bits, dice.randrange(20))
    many = drawn.count(dice)
    tables = drawn.tables(dice, many, ours.precision)
    head = f"ans_decode {ours.bits} {kind} {text(start)} {texts(tables)} {many}"
    try:
        before = ours.ans(kind, start)
    except Refused as refused:
        (answer,) = yield [head]
        verdict.same("import", str(refused.args[0]), answer)
        return
    symbols, behind = ours.ans_decode(before, tables, many)
    exports = ans_exports(ours, behind)
    again = f"ans_encode {ours.bits} compressed {exports[0]} {texts(tables)} {text(symbols)}"
    decoded, encoded = yield [head, again]
    if decoded == "invalid" or encoded in ("invalid", "impossible"):
        verdict.same("decode", text(symbols), f"{decoded}, {encoded}")
        return
    found, *left = decoded.split()
    verdict.same("decode", text(symbols), found)
    same_exports(verdict, "decode", exports, left)
    same_exports(verdict, "theirs encodes onto ours", ans_exports(ours, before), encoded.split())
    back = ours.ans_encode(ours.ans("compressed", numbers(left[0])), tables, numbers(found))
    verdict.same("ours encodes onto theirs", *(ans_exports(ours, it)[0] for it in (back, before)))


def range_encodes(ours: Ours, dice: random.Random, verdict: Verdict) -> Case:
    """Encodes symbols, looks at the words, may clear the encoder, and encodes more. Then both decode."""
    then, many = dice.choice(("on", "on", "clear")), drawn.count(dice)
    first = dice.randrange(many + 1)
    if dice.randrange(3):
        tables = drawn.tables(dice, many, ours.precision)
        symbols = drawn.symbols(dice, tables, many)
    else:
        tables, symbols = drawn.held(dice, many, ours.bits, ours.precision)
    head = f"range_encode {ours.bits} {then} {first} {texts(tables)} {text(symbols)}"
    encoder = ours.range_encoder()
    try:
        words = ours.range_encode(encoder, [], part(tables, 0, first), symbols[:first])
        so_far, held = text(ours.range_words(encoder, words)), (encoder.held, encoder.first)
        if then == "clear":
            encoder, words = ours.range_encoder(), []
        words = ours.range_encode(encoder, words, part(tables, first, many), symbols[first:])
    except Refused as refused:
        (answer,) = yield [head]
        verdict.same("encode", str(refused.args[0]), answer)
        return
    sealed = ours.range_words(encoder, words)
    begin = first if then == "clear" else 0
    tables, symbols = part(tables, begin, many), symbols[begin:]
    encoded, decoded = yield [head, f"range_decode {ours.bits} {text(sealed)} {texts(tables)} {len(symbols)}"]
    if encoded == "impossible":
        verdict.same("encode", text(sealed), encoded)
        return
    lent, theirs = encoded.split()
    verdict.same("encode, words so far", so_far, lent)
    kept = [held[1]] + [(1 << ours.bits) - 1] * (held[0] - 1) if held[0] and then == "clear" else []
    verdict.same("encode", text(sealed), theirs, CLEAR if kept else "", text(kept + sealed))
    verdict.same("theirs decodes ours", f"{text(symbols)} done", decoded)
    if not verdict.named:
        back = text(ours.range_decode(numbers(theirs), tables, len(symbols)))
        verdict.same("ours decodes theirs", back, text(symbols))


def range_decodes(ours: Ours, dice: random.Random, verdict: Verdict) -> Case:
    """Decodes symbols from random words, up to the first word that no encoder wrote.

    At least one symbol is requested, because the C function refuses words past all intervals even for no symbols.
    """
    words, many = drawn.words(dice, ours.bits, dice.randrange(20)), drawn.count(dice) or 1
    if dice.randrange(8) == 0:  # Beyond each interval: no encoder wrote them.
        words = [(1 << ours.bits) - 1] * 3 + words
    tables = drawn.tables(dice, many, ours.precision)
    _, symbols, end = longest(lambda some: ours.range_decode(words, part(tables, 0, some), some), many)
    (answer,) = yield [f"range_decode {ours.bits} {text(words)} {texts(tables)} {many}"]
    verdict.same("decode", f"{text(symbols or [])} {end}", answer)


def chain_exports(ours: Ours, coder: Chain) -> str:
    """Returns both sides in each form."""
    sides = []
    for kind in ("compressed", "binary", "remainders"):
        try:
            sides += [text(it) for it in ours.chain_words(coder, kind)]
        except Refused:
            sides += ["no", "no"]
    return " ".join(sides)


def chain_encodes(ours: Ours, dice: random.Random, verdict: Verdict) -> Case:
    """Encodes symbols from random remainders or words, until these end."""
    kind = dice.choice(("remainders", "remainders", "remainders", "compressed", "binary"))
    many = drawn.count(dice)
    words = drawn.words(dice, ours.bits, 3 + dice.randrange(many + 2))
    tables = drawn.tables(dice, many, ours.precision)
    symbols = drawn.symbols(dice, tables, many)

    def encode() -> str:
        before = ours.chain(kind, words)
        first = drawn.behind_unknown(tables, symbols)
        if first:  # The C function looks for these beforehand, theirs encodes up to the first of them.
            ours.chain_encode(before, part(tables, first, many), symbols[first:])
        return chain_exports(ours, ours.chain_encode(before, tables, symbols))

    (answer,) = yield [f"chain_encode {ours.bits} {kind} {text(words)} {texts(tables)} {text(symbols)}"]
    verdict.same("encode", attempt(encode), answer)


def chain_decodes(ours: Ours, dice: random.Random, verdict: Verdict) -> Case:
    """Decodes symbols from random words, until these end. Both encode them back from the other's remainders."""
    kind = dice.choice(("compressed", "compressed", "binary", "binary", "remainders"))
    many = drawn.count(dice)
    words = drawn.words(dice, ours.bits, dice.randrange(many + 5))
    tables = drawn.tables(dice, many, ours.precision)
    head = f"chain_decode {ours.bits} {kind} {text(words)} {texts(tables)} {many}"
    try:
        before = ours.chain(kind, words)
    except Refused as refused:
        (answer,) = yield [head]
        verdict.same("import", str(refused.args[0]), answer)
        return
    count, found, end = longest(lambda some: ours.chain_decode(before, part(tables, 0, some), some), many)
    symbols, behind = found
    left, remainders = ours.chain_words(behind, "remainders")
    tables = part(tables, 0, count)
    again = f"chain_encode {ours.bits} remainders {text(remainders)} {texts(tables)} {text(symbols)}"
    decoded, encoded = yield [head, again]
    verdict.same("decode", f"{text(symbols)} {end} {text(left)} {text(remainders)}", decoded)
    if verdict.differences:
        return
    theirs = numbers(decoded.split()[3])
    back = ours.chain_encode(ours.chain("remainders", theirs), tables, symbols)
    verdict.same("both encode back", chain_exports(ours, back), encoded)
    whole = Chain(left + back.compressed, back.remainders, back.heads)
    verdict.same("words come back", chain_exports(ours, whole), chain_exports(ours, before))


CASES = {
    "stack coder": (ans_encodes, ans_decodes),
    "range coder": (range_encodes, range_encodes, range_decodes),
    "chain coder": (chain_encodes, chain_decodes, chain_decodes),
}
