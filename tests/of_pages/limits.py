"""The pages together have a limit of words, README.md has its own, and only the caption of a table has a date."""

from __future__ import annotations

import re

from judging import judge, read
from links import pages
from reference import PAGES

# The most words that README.md has, and that all pages have together, as `wc -w` counts them. The pages have about 5 %
# of room below their limit.
README = 1300
ALL = 34500

# Pages whose length follows from something else: those that scripts write, and the one that has a row for each program.
UNLIMITED = (*PAGES, "examples/c/README.md")

MONTHS = "January|February|March|April|May|June|July|August|September|October|November|December"
DATE = re.compile(rf"\b(?:19|20)\d\d-\d\d\b|\b(?:{MONTHS}) (?:\d\d?, )?(?:19|20)\d\d\b")


def dates(text):
    """Yields the paragraphs that have a date and aren't just above a table."""
    paragraphs = re.split(r"\n\s*\n", text)
    for paragraph, following in zip(paragraphs, [*paragraphs[1:], ""]):
        if DATE.search(paragraph) and not following.startswith("|"):
            yield paragraph


def test():
    """Judges the numbers of words and the dates."""
    limited = [page for page in pages() if page not in UNLIMITED]
    words = {page: len(read(page).split()) for page in limited}
    judge(words["README.md"] <= README, f"README.md: {words['README.md']} words, more than {README}")
    judge(sum(words.values()) <= ALL, f"all pages: {sum(words.values())} words, more than {ALL}")
    for page in pages():
        for paragraph in dates(read(page)):
            judge(False, f"{page} says a date outside a table's caption: {paragraph.splitlines()[0][:60]}")
        judge(True, f"{page}: dates")
