"""The items of a source, by its layout: functions, types, constants, impls and traits with their members."""

import collections
import functools
import re

from layout import said, without_comments

BEGINS = re.compile(
    r"#\[|(?:pub|ghost|fn|final|const|type|impl|trait|struct|enum|union|static|mod|use|unsafe|extern)\b"
)
NAMED = re.compile(r"\b(fn|struct|enum|union|static|type|mod|trait|const|ghost) (?!fn\b|unsafe\b)(\w+)")
USES = re.compile(r"(?:pub(?:\([^)]*\))? |ghost )*use\b")
HOLDS_MEMBERS = re.compile(r"(?:pub(?:\([^)]*\))? |unsafe )*(?:impl|trait)\b")
IN_ANGLES = re.compile(r"<[^<>]*>")
IMPLEMENTS = re.compile(r".*?\bimpl (?:(.*?) for )?(.*?)(?: where\b.*)? ?\{")
WORD = re.compile(r"[\w']+")
HYPHENATED = re.compile(r"[\w']+(?:-[\w']+)+")

# An item: the header of its impl or trait, or '', its kind, its name, and its text.
Item = collections.namedtuple("Item", "head kind name text")


@functools.lru_cache(maxsize=None)
def items(text):
    """Returns the items of a source, without imports.

    An impl or trait is only its header, and its members are own items.
    """
    found = []
    for line, lines in parts(without_comments(text).split("\n"), ""):
        if HOLDS_MEMBERS.match(line):
            header, body = header_and_body(lines)
            head = said("\n".join(header))
            found.append(Item(head, "header", "", head))
            found += [item(head, *part) for part in parts(body, "    ") if not USES.match(part[0])]
        elif not USES.match(line):
            found.append(item("", line, lines))
    return found


def item(head, line, lines):
    """Returns the item of these lines."""
    kind, name = NAMED.search(line).groups() if NAMED.search(line) else ("", line)
    return Item(head, kind, name, said("\n".join(lines)))


def parts(lines, indent):
    """Returns the parts of a source at this indentation.

    Each has an item's first line, and all its lines with attributes.
    """
    found, is_named = [], True
    for line in lines:
        begins = line.startswith(indent) and BEGINS.match(line[len(indent) :])
        if begins and is_named or not found:
            found.append(["", []])
            is_named = False
        if begins and not begins[0].startswith("#"):
            found[-1][0], is_named = line[len(indent) :], True
        found[-1][1].append(line)
    return [(line, of_it) for line, of_it in found if any(of_it)]


def header_and_body(lines):
    """Returns the lines of an impl's or trait's header, and those of its members."""
    ends = next((at for at, it in enumerate(lines) if it.endswith(("{", "{}"))), len(lines) - 1)
    body = lines[ends + 1 :]
    return lines[: ends + 1], body[:-1] if body and body[-1] == "}" else body


@functools.lru_cache(maxsize=None)
def implemented(head):
    """Returns the trait and the type of an impl's header, without text in angle brackets. An impl without a trait has
    ''.

    For the header of a trait, returns its name and ''.
    """
    if found := re.search(r"\btrait (\w+)", head):
        return found[1], ""
    bare = re.sub(r"[-=]>", "", head)
    while IN_ANGLES.search(bare):
        bare = IN_ANGLES.sub("", bare)
    found = IMPLEMENTS.match(bare)
    return (["", *WORD.findall(found[1] or "")][-1], found[2]) if found else ("", "")


def is_of_trait(it):
    """Returns whether an item is the header of a trait or a member that it declares."""
    of_trait, of_type = implemented(it.head)
    return bool(of_trait) and not of_type


@functools.lru_cache(maxsize=None)
def words_of(text):
    """Returns the names in a text, and the words of names with hyphens."""
    return frozenset([*WORD.findall(text), *HYPHENATED.findall(text)])
