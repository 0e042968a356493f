"""Tests which changes make which stamps differ, on two crates in temporary folders. No checker runs."""

import os
import sys
import tempfile

sys.dont_write_bytecode = True
from edit import edits_of, function_at
from layout import said
from names import owner
from repository import Crates
from stamps import stamps_of

VERSION = "kit logic 0123456789abcdef"
LOWER, UPPER, SIZES, WIDE = (
    "crates/lower/src/lib.rt",
    "crates/upper/src/lib.rt",
    "crates/lower/specs/Sizes.antt",
    "crates/upper/specs/Wide.antt",
)
EDITS, PROOF = "crates/upper/edits/lib.edits", "crates/upper/proofs/Lib.antt"
FILES = {
    "crates.txt": "lower:\nupper: lower\n",
    PROOF: "mod Lemmas\n",
    SIZES: "-- how many\nabbrev pub size : ℕ\nsize = 1\n\nabbrev pub other : ℕ\nother = 2\n",
    WIDE: "use Rattle.lower.specs.Sizes.{size}\n\nabbrev pub wide : ℕ\nwide = suc size\n\nabbrev pub below : ℕ → ℕ\nbelow most = most\n\nabbrev pub value : ℕ\nvalue = 9\n\n"
    "pub record Kept (n : ℕ) : Type 0 where\n  pub any : 0 < n\n\n  -- and no more\n  pub few : n < 9\n",
    LOWER: """pub trait Wide {
    ghost width: { ℕ };

    ghost some: { 0 < width };
}

pub trait Measured: Wide {
    fn measure(&self) -> u32
        ensures { result ≡ Self.width };
}
""",
    UPPER: """//! A pile.
ghost use Rattle.upper.specs.Wide.{wide, Kept};

use lower::Measured;

/// Words in a pile.
pub struct Pile<Word> {
    words: Vec<Word>,
}

impl<Word> Model for Pile<Word> {
    ghost Value = { List Word };

    ghost view = { λ pile. elements pile.words };
}

impl<Word> Pile<Word>
where
    Word: Copy,
{
    /// The first.
    pub fn first(&self) -> u32
        ensures kept { result ≡ wide }
    {
        let value = two(1); // two
        value
    }

    pub fn second(&self) -> u32
        ensures value { result ≡ 7 }
        ensures again { Kept result }
    {
        let value = 7;
        let same = same(value);
        same
    }
}

pub fn weigh(pile: &Pile<u8>) -> u32 {
    5
}

pub struct Left;

pub struct Right;

pub struct Pair {
    front: u32,
    back: u32,
    gap: u32,
}

impl Pair {
    pub fn nearest(&self, at: Left) -> u32
        requires few { Left.few < 9 }
        requires size { Right.size < 9 }
        ensures { result ≡ self.now.front }
    {
        self.front + gap(0)
    }
}

impl<Word> Wide for Pile<Word> {
    ghost width = { 3 };

    ghost some = { omega arith };
}

impl<Word> Measured for Pile<Word> {
    fn measure(&self) -> u32 {
        3
    }
}

impl<Word> Iterator for Pile<Word> {
    ghost next_gives = { Yields };

    fn next(&mut self) -> Option<Word> {
        None
    }
}
""",
    EDITS: """## first: one more
old: let value = two(1);
new: let value = two(2);

## second: one more
old: let value = 7;
new: let value = 8;

## weigh: one more
old:     5
new:     6

## nearest: the other one
old:         self.front
new:         self.back

## next: forgets
old:         None
new:         none()

## measure: one more
old:         3
new:         4
""",
}


def renamed(old, new, *paths):
    """Returns the changes that give what has a name another one, wherever these files have it."""
    return [(path, old, new) for path in paths if old in FILES[path]]


def exchanged(one, other, *paths):
    """Returns the changes that exchange two names in files that have both."""
    return [(path, *change) for path in paths for change in ((one, "~"), (other, one), ("~", other))]


FIRST, ALL = ["first"], ["first", "measure", "next", "second", "weigh"]
# The changes of each case (a file, an old text and a new one), and the functions whose stamps differ.
CASES = {
    "layout": (
        [
            (UPPER, "same(value)", "same(\n            value,\n        )"),
            (UPPER, "first(&self)", "first(\n        &self,\n    )"),
        ],
        [],
    ),
    "layout of a definition": ([(WIDE, "wide = suc size", "wide =\n    suc  size")], []),
    "comments": (
        [(UPPER, " // two", ""), (UPPER, "The first.", "Not the last."), (SIZES, "-- how many\n", "-- how\n-- many\n")],
        [],
    ),
    "what is used": (
        [
            (UPPER, "use lower::Measured;", "use lower::{Measured, Other};"),
            (UPPER, "{wide, Kept}", "{below, wide, Kept}"),
        ],
        [],
    ),
    "a proof": ([(PROOF, "Lemmas", "Others")], []),
    "another function": ([(UPPER, "same(value)", "same(value + 0)")], ["second"]),
    "what a clause is called": ([(UPPER, "ensures kept", "ensures value")], []),
    "the keyword of a clause": ([(UPPER, "ensures kept", "requires kept")], FIRST),
    "the contract": ([(UPPER, "result ≡ wide", "result ≡ wide + 0")], FIRST),
    "a definition": ([(WIDE, "wide = suc size", "wide = size + 1")], FIRST),
    "a definition that nothing cites": ([(WIDE, "below most = most", "below most = suc most")], []),
    "a definition with the name of a local": ([(WIDE, "value = 9", "value = 8")], []),
    "a definition in another file": (
        [
            (WIDE, "abbrev pub wide : ℕ\nwide = suc size\n\n", ""),
            (SIZES, "-- how many\n", "abbrev pub wide : ℕ\nwide = suc size\n\n"),
        ],
        [],
    ),
    "a field after an empty line": ([(WIDE, "n < 9", "n < 10")], ["second"]),
    "a definition below, by way of another": ([(SIZES, "size = 1", "size = suc 0")], FIRST),
    "a definition below that nothing cites": ([(SIZES, "other = 2", "other = 3")], []),
    "a where line": ([(UPPER, "Word: Copy", "Word: Clone")], ["first", "second"]),
    "an impl Model": ([(UPPER, "elements pile.words", "reverse (elements pile.words)")], ALL),
    "a struct": ([(UPPER, "words: Vec<Word>", "words: Vec<Word>, count: usize")], ALL),
    "a ghost member of the type": ([(UPPER, "width = { 3 }", "width = { 1 + 2 }")], ["measure"]),
    "a ghost member of another library's trait": ([(UPPER, "{ Yields }", "{ YieldsNone }")], ["next"]),
    "the proof of a law": ([(UPPER, "omega arith", "zero_less")], []),
    "a trait below": ([(LOWER, "≡ Self.width", "≡ Self.width + 0")], ["measure"]),
    "a trait of that trait": ([(LOWER, "0 < width", "1 < width")], ["measure"]),
    "a member that a trait declares, and not its supertrait": (
        [
            (LOWER, "{ ℕ };\n\n    ghost some: { 0 < width };\n", "{ ℕ };\n"),
            (LOWER, "Measured: Wide {\n", "Measured: Wide {\n    ghost some: { 0 < Self.width };\n\n"),
            (UPPER, "{ 3 };\n\n    ghost some = { omega arith };\n", "{ 3 };\n"),
            (UPPER, "Measured for Pile<Word> {\n", "Measured for Pile<Word> {\n    ghost some = { omega arith };\n\n"),
        ],
        [],
    ),
    "a supertrait's member that is gone": (
        [
            (LOWER, "{ ℕ };\n\n    ghost some: { 0 < width };\n", "{ ℕ };\n"),
            (UPPER, "{ 3 };\n\n    ghost some = { omega arith };\n", "{ 3 };\n"),
        ],
        ["measure"],
    ),
    "a function that is called": (
        [(UPPER, "pub fn second", "fn two(x: u32) -> u32 {\n        x\n    }\n\n    pub fn second")],
        [],
    ),
    "a definition of another name": (renamed("wide", "broad", UPPER, WIDE), []),
    "a definition below of another name": (renamed("size", "count", WIDE, SIZES), []),
    "a record of another name": (renamed("Kept", "Spared", UPPER, WIDE), []),
    "a record's field of another name": (renamed("few", "most", WIDE), []),
    "records' fields with the names of each other": ([(WIDE, "any", "few "), (WIDE, "pub few :", "pub any :")], []),
    "a type of another name": (renamed("Pile", "Heap", UPPER), []),
    "a type of another name next to a similar one": (renamed("Left", "Start", UPPER), []),
    "another type that is alike": ([(UPPER, "at: Left", "at: Right")], ["nearest"]),
    "a field of another name": (renamed("front", "head", UPPER, EDITS), []),
    "a field with the name of a function that is called": ([(UPPER, "    gap: u32", "    room: u32")], []),
    "fields with the names of each other": (exchanged("front", "back", UPPER, EDITS), []),
    "a trait of another name": (renamed("Measured", "Weighed", LOWER, UPPER), []),
    "a ghost member of another name": (renamed("width", "breadth", LOWER, UPPER), []),
    "all of other names": (
        [
            it
            for pair in (("wide", "broad"), ("Kept", "Aa"), ("Pile", "Zz"), ("Wide", "Qq"), ("width", "qq"))
            for it in renamed(*pair, *FILES)
        ],
        [],
    ),
    "another definition": (
        [(UPPER, "{wide, Kept}", "{value, Kept}"), (UPPER, "result ≡ wide", "result ≡ value")],
        ["first", "second"],
    ),
    "another field": ([(UPPER, "self.now.front", "self.now.back")], ["nearest"]),
    "another field in a function and its edit": (
        [
            *exchanged("self.front", "self.back", EDITS),
            (UPPER, "now.front", "now.back"),
            (UPPER, "    self.front", "    self.back"),
        ],
        ["nearest"],
    ),
    "fields in another order": (
        [(UPPER, "    front: u32,\n    back: u32,", "    back: u32,\n    front: u32,")],
        ["nearest"],
    ),
    "a record's fields in another order": (
        [(WIDE, "0 < n", "n < 9 "), (WIDE, "few : n < 9", "few : 0 < n")],
        ["second"],
    ),
    "a name that another library has": ([(UPPER, "elements pile.words", "length pile.words")], ALL),
    "another function that is called": ([(UPPER, "two(1)", "three(1)"), (EDITS, "two(", "three(")], FIRST),
    "an edit": ([(EDITS, "two(2)", "two(3)")], FIRST),
    "a heading": ([(EDITS, "first: one more", "first: one too many")], []),
}
# Pairs of texts that are equal without layout, and pairs that aren't.
SAME = [
    ("{ a }", "{\n    a\n}"),
    ("f  a\n  b", "f a b"),
    ("f(\n    a,\n    b,\n)", "f(a, b)"),
    ("F<\n    A,\n>::new()", "F<A>::new()"),
    ("a\n    .b()", "a.b()"),
]
OTHER = [
    ("(a,)", "(a)"),
    ("a && b", "a & &b"),
    ('"a  b"', '"a b"'),
    ("f x", "fx"),
    ("f (a, b)", "f (a, c)"),
    ("-x", "- x"),
]
# Headers of impls, and their parts of the checker's names.
OWNERS = {
    "": [],
    "pub trait Decode<const P: usize>: Code {": ["Decode"],
    "impl<Word: Copy, A> Pile<Word, A> where Word: Copy, {": ["Pile"],
    "impl<Word> Pile<Word, Vec<Word>> {": ["Pile+Word+Vec+Word"],
    "impl<'a, Word> Pile<Word, &'a [Word]> {": ["Pile+Word+ref+slice+Word"],
    "impl<Word> ReadWords<Word, Stack> for &mut Vec<Word> {": ["RefMutVecReadWordsStack"],
    "impl<Inner: Drop> Drop for Guard<'_, Inner> {": ["Guard"],
}
# Const parameters on lines of their own aren't items.
LEAST = "pub fn least<\n    Word: Copy,\n    const MOST: usize,\n>(word: Word) -> usize {\n    MOST\n}\n\npub const ROOM: usize = 7;".split(
    "\n"
)


def stamps(files, changes):
    """Returns the checksums of the stamps after changes of files, by function."""
    files = dict(files)
    for path, old, new in changes:
        if old not in files[path]:
            raise ValueError(f"{path} has no '{old}'")
        files[path] = files[path].replace(old, new)
    with tempfile.TemporaryDirectory() as root:
        for path, text in files.items():
            os.makedirs(os.path.dirname(f"{root}/{path}"), exist_ok=True)
            with open(f"{root}/{path}", "w", encoding="utf-8") as out:
                out.write(text)
        crates = Crates(root)
        edits, faults = edits_of(crates.folder("upper"))
        if faults:
            raise ValueError(faults[0])
        return {key.function: stamp.sum for key, stamp in stamps_of(crates, "upper", edits, VERSION).items()}


def main():
    """Runs all cases, prints the faults, and returns the status."""
    before, faults = stamps(FILES, []), []
    for name, (changes, wanted) in CASES.items():
        now = stamps(FILES, changes)
        got = sorted(it for it in now if now[it] != before[it])
        faults += [] if got == wanted else [f"{name}: {got}, and not {wanted}"]
    faults += [f"{pair} differ" for pair in SAME if said(pair[0]) != said(pair[1])]
    faults += [f"{pair} don't differ" for pair in OTHER if said(pair[0]) == said(pair[1])]
    faults += [f"{head}: {owner(head)}" for head in OWNERS if owner(head) != OWNERS[head]]
    of_alias = owner("impl<Word: BitArray, B> Coder<Word, B> {", frozenset({"Coder"}))
    faults += [] if of_alias == ["Coder+Word+B"] else [f"the methods of a type's alias: {of_alias}"]
    faults += (
        []
        if [function_at(LEAST, at) for at in (4, 7)] == ["least", "ROOM"]
        else ["a const parameter is taken for an item"]
    )
    print("\n".join(faults))
    return bool(faults)


if __name__ == "__main__":
    sys.exit(main())
