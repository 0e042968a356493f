"""The prose of all pages is wrapped at 120 columns, as tools/wrap does it."""

from __future__ import annotations

import os
import sys

from judging import TOP, judge, read

sys.path.insert(0, f"{TOP}/tools")
from wrapping import wrapped  # noqa: E402

LEFT_OUT = (".git", "build", "out", "crates", "target")


def test():
    """Judges each page of the repository."""
    for at, folders, names in os.walk(TOP):
        folders[:] = [it for it in folders if it not in LEFT_OUT]
        for page in sorted(os.path.relpath(f"{at}/{name}", TOP) for name in names if name.endswith(".md")):
            text = read(page)
            judge(wrapped(text) == text, f"{page}: tools/wrap changes its line breaks")
