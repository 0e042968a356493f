"""Wraps the prose of a page. Tables, code, headings and comments stay."""

import re
import textwrap

WIDTH = 120
CODE = re.compile(r"`[^`\n]+`")
MARKER = re.compile(r"( *)([-*]|\d+\.) +(?=\S)")
# Lines that stay: tables, headings, comments, pictures, quotes, and code that is indented.
STAYS = re.compile(r"\||#|<!--|!\[|>|    |\t")
JOINT = "\0"


def filled(first, rest, text):
    """Returns a paragraph's lines, with the indents of its first line and of the others."""
    text = CODE.sub(lambda it: it[0].replace(" ", JOINT), " ".join(text.split()))
    text = re.sub(r" (?=(?:[-*+]|\d+[.)]|#+|>) )", JOINT, text)  # else the next line would begin a list
    lines = textwrap.wrap(
        text, WIDTH, initial_indent=first, subsequent_indent=rest, break_long_words=False, break_on_hyphens=False
    )
    return [line.replace(JOINT, " ") for line in lines]


class Wrapped:
    """Collects the lines of a page, and wraps each paragraph when it ends."""

    def __init__(self):
        self.lines, self.words, self.indents = [], [], None

    def end(self):
        """Wraps the paragraph, if there is one."""
        if self.indents is not None:
            self.lines += filled(*self.indents, " ".join(self.words))
        self.words, self.indents = [], None

    def keep(self, line):
        """Ends the paragraph, and adds a line that stays."""
        self.end()
        self.lines.append(line)

    def add(self, line):
        """Adds a line of prose: the beginning of an item of a list or of a paragraph, or more of it."""
        marker = MARKER.match(line)
        if marker:
            self.end()
            self.indents = marker[0], " " * len(marker[0])
            line = line[marker.end() :]
        elif self.indents is None:
            indent = line[: len(line) - len(line.lstrip())]
            self.indents = indent, indent
        self.words.append(line.strip())


def wrapped(text):
    """Returns the text of a page after wrapping."""
    page, fence = Wrapped(), ""
    for line in text.split("\n"):
        mark = re.match(r" *(```+|~~~+)", line)
        if fence or mark:
            page.keep(line)
            fence = "" if mark and mark[1] == fence else fence or mark[1]
        elif not line.strip() or STAYS.match(line) and (page.indents is None or not line.startswith("    ")):
            page.keep(line)
        else:
            page.add(line)
    page.end()
    return "\n".join(page.lines)
