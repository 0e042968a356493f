"""Texts without layout and comments."""

import functools
import re

# A comment, a text, a character, a word (also a lifetime), an arrow or comparison, white space, or another character.
TOKEN = re.compile(r"""//[^\n]*|b?"(?:\\.|[^"\\])*"|b?'(?:\\.[^']*|[^'\\])'|[\w']+|[-=]>|[<>=!]=|\s+|.""", re.DOTALL)
TEXT_OR_SPACE = re.compile(r'"(?:\\.|[^"\\\n])*"|\s+')
# A line of a file of specs/ that is a comment, an import, or the declaration of a module.
UNSAID = re.compile(r"\s*--|(?:pub )?(?:use|mod) ")
OPENING, CLOSING = ("(", "[", "{"), (")", "]", "}")


@functools.lru_cache(maxsize=None)
def without_comments(text):
    """Returns a source without comments, and without the lines that are empty then."""
    bare = TOKEN.sub(lambda it: "" if it[0].startswith("//") else it[0], text)
    return "\n".join(line.rstrip() for line in bare.split("\n") if line.strip())


def said(text):
    """Returns a part of a source without comments in one line.

    White space becomes one space, or none inside brackets and at a line break before a `.`. No list ends with a comma.
    """
    out, gap, calls = [], "", []
    for token in TOKEN.findall(text):
        if token.isspace():
            gap = token
            continue
        if out and out[-1] == "," and is_end_of_list(token, gap, calls):
            out.pop()
        if token in OPENING:
            calls.append(not gap and bool(out) and bool(re.search(r"[\w>)\]!]$", out[-1])))
        elif token in CLOSING and calls:
            calls.pop()
        if gap and out and not is_layout(out[-1], gap, token):
            out.append(" ")
        out.append(token)
        gap = ""
    return "".join(out)


def is_end_of_list(token, gap, calls):
    """Returns whether a comma before this token is only layout. In a tuple of one value it isn't."""
    if token == ")":
        return bool(calls) and calls[-1]
    return token in CLOSING or token == ">" and "\n" in gap


def is_layout(before, gap, after):
    """Returns whether white space between two tokens is only layout."""
    if before in OPENING or after in CLOSING:
        return True
    return "\n" in gap and (before == "<" or after in (">", "."))


@functools.lru_cache(maxsize=None)
def said_by_definitions(text):
    """Returns the parts of a file of specs/, without comments and imports.

    A part begins after an empty line with a line without indent. A line that is indented more than the fields of a
    record continues the line before it.
    """
    parts = [
        [it for it in part.split("\n") if it.strip() and not UNSAID.match(it)]
        for part in re.split(r"\n\s*\n(?=\S)", text)
    ]
    return [re.sub(r"\n {3,}", " ", "\n".join(map(in_one_space, it))) for it in parts if it]


def in_one_space(line):
    """Returns a line in which white space is one space, except its indent and white space in string literals."""
    indent = line[: len(line) - len(line.lstrip())]
    return indent + TEXT_OR_SPACE.sub(lambda it: it[0] if it[0].startswith('"') else " ", line.strip())
