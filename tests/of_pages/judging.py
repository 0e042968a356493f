"""Common code of the tests of pages: judgement of a case, and search of texts and rows in a page."""

from __future__ import annotations

import os
import re
from math import log2

TOP = os.path.dirname(os.path.dirname(os.path.dirname(os.path.abspath(__file__))))
passed, faults = [], []


def judge(is_so, fault):
    """Records a passed case, or a fault."""
    (passed if is_so else faults).append(fault)


def read(path):
    """Returns the text of a file of the repository."""
    with open(f"{TOP}/{path}", encoding="utf-8") as file:
        return file.read()


class Page:
    """A page's text. Found parts are crossed out."""

    def __init__(self, name):
        self.name = name
        text = re.sub(r"\]\([^)]*\)", "]", read(name))  # where links lead
        text = re.sub(r"\|\n\|", "|¶|", text)  # the end of a row
        self.left = re.sub(r"[ \n]+", " ", re.sub(r"\|\n\|", "|¶|", text))

    def has(self, words):
        """Judges that the page has these words, wherever its lines end."""
        words = re.sub(r"\s+", " ", words)
        judge(words in self.left, f"{self.name} has not: {words}")
        self.left = self.left.replace(words, "…")

    def row(self, *cells):
        """Judges that the page has a row of a table with these cells."""
        row = "|" + "|".join(f" {cell} " if str(cell) else " " for cell in cells) + "|"
        judge(row in self.left, f"{self.name} has no row: {row}")
        self.left = self.left.replace(row, "…")

    def rest(self, *given):
        """Judges that the rest of the page has no numbers except these."""
        for number in sorted(set(re.findall(r"\d[\d.]*\d|\d", self.left))):
            judge(number in given, f"{self.name}: nothing computes the number {number}")


def bits_of_information(weight, precision):
    """Returns an information content with two decimal places, or none if they are zeros."""
    text = f"{precision - log2(weight):.2f}"
    return "1 bit" if text == "1.00" else f"{text.removesuffix('.00')} bits"


def entries(weights):
    """Returns the start and the length of each symbol's interval."""
    return [(sum(weights[:symbol]), weight) for symbol, weight in enumerate(weights)]


def symbol_at(weights, quantile):
    """Returns the symbol whose interval holds a quantile."""
    return next(symbol for symbol in range(len(weights)) if quantile < sum(weights[: symbol + 1]))


def quantiles(left, length):
    """Returns an interval as text."""
    return f"{left} to {left + length - 1}"


def digits(number, count):
    """Returns `count` digits in base 256, the highest first."""
    return [number >> 8 * place & 255 for place in reversed(range(count))]


def series(numbers):
    """Returns numbers with commas."""
    return ", ".join(map(str, numbers))


def listed(numbers):
    """Returns numbers as a list."""
    return f"[{series(numbers)}]"
