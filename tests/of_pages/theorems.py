"""The main theorems of docs/PROVED.md: each law, each clause of a call and each other name exists."""

from __future__ import annotations

import os
import re

from judging import TOP, judge, read
from proved import parts_of, sources

PAGE, SECTION = "docs/PROVED.md", "\n## Main theorems and their premises\n"


def judge_law(path):
    """Judges that the file of a law's module has the law."""
    *modules, name = path.split("::")
    file = "crates/constriction_laws/src/" + "/".join(modules) + ".rt"
    judge(os.path.exists(f"{TOP}/{file}"), f"{PAGE}: there is no {file}")
    if os.path.exists(f"{TOP}/{file}"):
        judge(re.search(rf"^pub fn {name}\b", read(file), flags=re.M), f"{PAGE}: {file} has no law {name}")


def test():
    """Judges the names of the section."""
    text = read(PAGE).partition(SECTION)[2].partition("\n## ")[0]
    crates = sorted(it for it in os.listdir(f"{TOP}/crates") if it.startswith("constriction"))
    parts = parts_of(crates)
    words = set(re.findall(r"\w+", " ".join(sources(crates, ["src", "specs"]))))
    laws = re.findall(r"`(\w+(?:::\w+)+)`", text)
    judge(len(laws) > 5, f"{PAGE} names {len(laws)} laws")
    for path in laws:
        judge_law(path)
    for name, clause in re.findall(r"`(\w+)`: `(\w+)`", text):
        judge(clause in parts.get(name, set()), f"{PAGE}: {name} has no clause {clause}")
    for name in re.findall(r"`(\w+)`", text):
        judge(name in words or re.fullmatch(r"[A-Z]|\d\w*", name), f"{PAGE}: there is no {name}")
