"""The texts of tools/families.txt for a table of families, and the files that have them."""

from __future__ import annotations

import functools
import os
import re
import string
import sys

import distributions
from wrapping import filled

TOP = os.path.dirname(os.path.dirname(os.path.realpath(__file__)))
ORDINALS = "first second third fourth fifth sixth".split()
COUNTS = "no one two three four five six".split()
LETTERS = "ABCDEF"
# `d` is the name of a distribution.
LAWS = "abcefg"
# The tests of intervals: locations and scales in 65536ths, and symbols of -100 .. 100.
INTERVALS = [
    (0, 65536, [0, 1, -5]),
    (229376, 147456, [7, -100, 100]),
    (10000000, 3, [100, 99]),
    (-3, 2147483647, [-37]),
    (32768, 1, [0, 1]),
]
# Files that other scripts write whole, from the files with the family.
WRITTEN = {
    "docs/CONTRACTS.md": "tools/contracts_page",
    "docs/DEFINITIONS.md": "tools/definitions_page",
    "docs/LABELS.md": "tools/labels_page",
    "docs/python.md": "tools/python_page",
    "docs/vectors.txt": "tests/vectors",
    "edits/STAMPS": "edits/try",
    "crates/constriction/specs/": "tools/facade",
}
# Folders that builds or git make.
BUILT = (".git", "build", "out", "target", "__pycache__")
REPEATED = re.compile(r"«([^«»~]*)~(?:([^«»~]*)~)?([^«»~]*)»")
BLOCK = re.compile(r"^== (others )?(\w+) (\S+)(?: (.*))?\n((?:(?!== ).*\n)*)", re.M)
PREFIX = re.compile(r" *(?://[/!] |)(?:- )?")


def joined(between, last, items):
    """Returns items with a text between them, and another one before the last item."""
    if last is None or len(items) == 1:
        return between.join(items)
    return between.join(items[:-1]) + last + items[-1]


def numeral(number, inner="zero"):
    """Returns the pattern of a number in definitions."""
    return inner if number == 0 else f"(suc {numeral(number - 1, inner)})"


@functools.lru_cache(maxsize=None)
def intervals(name):
    """Returns the cases of a family's test, by the definitions of tests/python."""
    sys.path.append(f"{TOP}/tests/python")
    import definitions_of_models as models

    cases = []
    for location, scale, symbols in INTERVALS:
        begins = models.starts(name, location, scale, -100, 201)
        for symbol in symbols:
            left, end = begins[symbol + 100], begins[symbol + 101]
            cases.append(f"        ({location}, {scale}, {symbol}, ({left}, {end - left})),")
    return "\n".join(cases)


@functools.lru_cache(maxsize=None)
def table(name):
    """Returns the file of a family's table, without its last line break."""
    return distributions.file_of(name).rstrip("\n")


class Fields(dict):
    """The names of a family in texts."""

    COMPUTED = {"table": table, "intervals": intervals}

    def __missing__(self, key):
        """Returns a text that takes long to compute."""
        return self.COMPUTED[key](self["name"])


def fields(families):
    """Returns the names that all families share, and those of each family."""
    count = len(families)
    shared = {
        "count": COUNTS[count],
        "last": str(count - 1),
        "other": numeral(count, "other"),
        "all": " ".join(ORDINALS[:count]),
        "laws": " ".join(LAWS[:count]),
    }
    own = []
    for number, (name, it) in enumerate(families.items()):
        imports = f"use crate::{name}::table::{{GUESSES, VALUES}};", (
            "use crate::location_scale::{LocationScale, StandardDistribution};"
        )
        own.append(
            Fields(
                shared,
                **{key: value for key, value in it._asdict().items() if isinstance(value, str)},
                **{"name": name, "NAME": name.upper(), "number": str(number), "numeral": numeral(number)},
                **{"ordinal": ORDINALS[number], "Ordinal": ORDINALS[number].title(), "letter": LETTERS[number]},
                **{"law": LAWS[number], "values": it.standard.lower(), "imports": "\n".join(sorted(imports))},
                **{"reach": str(it.reach), "width": str(2 * it.reach), "meaning": it.scale},
                **{"padded": f"{name.upper():12}", "padded_location": f"{it.location:12}"},
                listed_rules=it.rules.replace(" ", ", "),
                defined=", ".join([f"{it.standard.lower()}_values", *it.definitions.split()]),
                unfolded=" ".join([f"{it.standard.lower()}_values", *it.definitions.split(), *it.rules.split()]),
                exported=", ".join(sorted((it.type, f"Standard{it.standard}"))),
            )
        )
    return shared, own


def filled_in(text, shared, own):
    """Returns a text for families."""

    def repeated(found):
        return joined(found[1], found[2], [string.Template(found[3]).substitute(it) for it in own])

    return string.Template(REPEATED.sub(repeated, text)).substitute(shared)


def in_lines(kind, text):
    """Returns a text, with the lines of prose wrapped."""
    if kind != "prose":
        return text
    first = PREFIX.match(text)[0]
    return "\n".join(filled(first, first.replace("- ", "  "), text[len(first) :]))


def blocks():
    """Yields the blocks of tools/families.txt: the first family, the kind, the path, the argument and the text."""
    with open(f"{TOP}/tools/families.txt", encoding="utf-8") as file:
        text = file.read()
    for others, kind, path, of, text in BLOCK.findall(text):
        yield 1 if others else 0, kind, path, of, text[:-1]


def rendered(families):
    """Yields the kind, the path, the argument and the texts of each block.

    A file has its text. Lines are a list. Other texts are a pair: for all families but the last, and for all.
    """
    now, before = fields(families), fields(dict(list(families.items())[:-1]))
    for first, kind, path, of, text in blocks():
        own = [
            (string.Template(path).substitute(it), string.Template(text).safe_substitute(it)) for it in now[1][first:]
        ]
        if kind == "file":
            yield from ((kind, at, of, each + "\n") for at, each in own)
        elif kind == "lines":
            yield kind, path, of, [each for _, each in own]
        else:
            old, new = (in_lines(kind, filled_in(text, shared, these[first:])) for shared, these in (before, now))
            yield kind, path, of, (old, new)


def files_of(families):
    """Returns the paths of the files that tools/families writes, or writes texts of."""
    return sorted({path for _, path, _, _ in rendered(families)})


def read(path):
    """Returns the text of a file of the repository, or nothing if there is no such file."""
    if not os.path.exists(f"{TOP}/{path}"):
        return ""
    with open(f"{TOP}/{path}", encoding="utf-8", errors="replace") as file:
        return file.read()


def with_lines(text, lines, among):
    """Returns a text with a line for each family."""
    for line, before in zip(lines, [None, *lines]):
        have = text.split("\n")
        if line not in have:
            others = [it for it in have if among and re.match(among, it)]
            lower = [it for it in others if it < line] if among else [before]
            at = have.index(lower[-1]) + 1 if lower else have.index(others[0])
            text = "\n".join([*have[:at], line, *have[at:]])
    return text


def with_text(path, text, old, new):
    """Returns a text in which a list of the families has all families."""
    if text.count(new) == 1:
        return text
    if text.count(old) != 1:
        sys.exit(f"{path} doesn't have this text once:\n{old}")
    return text.replace(old, new)


def changed(families, texts):
    """Returns the texts of the files that families are in, by path, after a change to the given texts."""
    texts = dict(texts)
    for kind, path, of, text in rendered(families):
        if kind == "file":
            texts[path] = text
        elif kind == "lines":
            texts[path] = with_lines(texts[path], text, of)
        else:
            texts[path] = with_text(path, texts[path], *text)
    return texts


def without_texts(blocks_of_path, text):
    """Returns a file's text without the rendered blocks of this file."""
    for kind, _, _, written in blocks_of_path:
        if kind == "file":
            return ""
        if kind == "lines":
            text = "\n".join(it for it in text.split("\n") if it not in written)
        else:
            text = text.replace(written[1], "")
    return text


def all_files():
    """Yields the paths of the repository's files, without those that builds make."""
    for at, folders, names in os.walk(TOP):
        folders[:] = sorted(it for it in folders if it not in BUILT)
        yield from (os.path.relpath(f"{at}/{name}", TOP) for name in sorted(names))


def by_hand(families, name):
    """Returns the paths of files that have a family's name outside of texts that scripts write, in text or path."""
    found, all_blocks = [], [*rendered(families)]
    for path in all_files():
        if not any(path.startswith(it) for it in WRITTEN):
            left = without_texts([it for it in all_blocks if it[1] == path], read(path))
            if name in left.lower() or name in path and left:
                found.append(path)
    return found
