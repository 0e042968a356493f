"""Contracts of public functions, methods, traits and impls, by their places in the sources."""

import collections
import functools
import re

from items import implemented, is_of_trait
from layout import CLOSING, OPENING, TOKEN

# The place of a contract: its file, the header of its impl or trait, and the name of the function or ghost member.
Place = collections.namedtuple("Place", "file head name")


def without_attributes(tokens):
    """Returns an item's tokens without its attributes."""
    while tokens[:2] == ["#", "["]:
        tokens = tokens[1 + length_of_group(tokens[1:]) :]
        tokens = tokens[1:] if tokens[:1] == [" "] else tokens
    return tokens


def length_of_group(tokens):
    """Returns how many tokens there are up to the bracket that closes the first."""
    depth = 0
    for at, token in enumerate(tokens):
        depth += (token in OPENING) - (token in CLOSING)
        if depth == 0:
            return at + 1
    return len(tokens)


def clauses(text):
    """Returns the clauses of a function by keyword and label, each in one line, and its signature."""
    tokens, at, found, label, rest = without_attributes(TOKEN.findall(text)), 0, {}, "", []
    while at < len(tokens) and tokens[at] != ";":
        token, length = tokens[at], length_of_group(tokens[at:]) if tokens[at] in OPENING else 1
        if token == "{" and not label:
            break
        if token == "{":
            add(found, label, "".join(tokens[at + 1 : at + length - 1]))
            label = ""
        elif token in ("requires", "ensures", "ghost") or label:
            label += token
        else:
            rest += tokens[at : at + length]
        at += length
    return {"signature": "".join(rest).strip().rstrip(","), **found}


def add(found, label, clause):
    """Adds a clause under its label, with a number where it isn't the first of this label."""
    label = " ".join(label.split())
    count = sum(it == label or it.startswith(f"{label} #") for it in found)
    found[f"{label} #{count + 1}" if count else label] = clause


def is_public(it):
    """Returns whether a function is public, or a method of a trait or of an impl of one."""
    return it.kind == "fn" and bool(implemented(it.head)[0] or re.match(r"pub (?:\w+ |\"C\" )*fn ", bare(it)))


def bare(it):
    """Returns what an item says without its attributes."""
    return "".join(without_attributes(TOKEN.findall(it.text)))


@functools.lru_cache(maxsize=None)
def spoken_of(sources):
    """Returns the ghost members that impls choose, but the proofs of laws."""
    return {it[:3] for it in sources.members()}


def contracts(sources, crate):
    """Returns the clauses of what has a contract in a crate, by its place."""
    found = {}
    for file in sorted(it for it in sources.files if it.startswith(f"{crate}/")):
        for it in sources.files[file]:
            place = Place(file.removeprefix(f"{crate}/src/"), it.head, it.name)
            if is_public(it):
                found[place] = clauses(it.text)
            elif it.kind == "header":
                found[place] = {"header": bare(it).rstrip("{} ")}
            elif it.kind == "ghost" and (is_of_trait(it) or (it.name, *implemented(it.head)) in spoken_of(sources)):
                found[place] = {f"ghost {it.name}": it.text}
    return found
