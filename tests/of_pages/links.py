"""Links of pages lead to files and headings, and bench/words names rows of docs/DIFFERENCES.md."""

from __future__ import annotations

import os
import re

from judging import TOP, judge, read


def pages():
    """Returns the paths of all pages."""
    docs = [f"docs/{it}" for it in sorted(os.listdir(f"{TOP}/docs")) if it.endswith(".md")]
    return ["README.md", *docs, "edits/README.md", "python/README.md", "examples/c/README.md", "bench/README.md"]


def anchors(path):
    """Yields the anchors of a page's headings."""
    for head in re.findall(r"^#+ (.*)$", read(path), flags=re.M):
        yield re.sub(r"[^\w -]", "", re.sub(r"\]\([^)]*\)", "]", head).lower()).replace(" ", "-")


def leads(page, link):
    """Returns whether a link of a page leads to a file, and to a heading if it names one."""
    path, _, anchor = link.partition("#")
    target = os.path.normpath(f"{os.path.dirname(page)}/{path}") if path else page
    return os.path.exists(f"{TOP}/{target}") and (not anchor or anchor in anchors(target))


def test():
    """Judges the links, and the rows that bench/words names."""
    for page in pages():
        text = re.sub(r"```.*?```", "", read(page), flags=re.S)
        for link in re.findall(r"\]\(([^)\s]+)\)", text):
            if not re.match(r"[a-z]+:", link):
                judge(leads(page, link.lstrip("/")), f"{page}: the link {link} leads nowhere")
    differences = read("docs/DIFFERENCES.md")
    for row in re.findall(r'^[A-Z_]+ = "(.*)"$', read("bench/of_words/verdict.py"), flags=re.M):
        judge(f"| {row}" in differences, f"docs/DIFFERENCES.md: no row begins with: {row}")
