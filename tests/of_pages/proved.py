"""Names in docs/PROVED.md exist: clauses in contracts of functions, fields in records, other names anywhere."""

from __future__ import annotations

import os
import re

from judging import TOP, judge, read

BELOW = ["constriction_words", "constriction_base", "constriction_stream"]
TESTS = ["constriction_lower_tests", "constriction_coder_tests", "constriction_upper_tests"]


def sources(crates, folders):
    """Yields the texts of the files of these crates, in their folders src, specs or proofs."""
    for folder in (f"crates/{crate}/{folder}" for crate in crates for folder in folders):
        for path, _, names in sorted(os.walk(f"{TOP}/{folder}")):
            for name in sorted(names):
                if name.endswith((".rt", ".antt")):
                    yield read(os.path.relpath(f"{path}/{name}", TOP))


def parts_of(crates):
    """Returns the clauses of each function and the fields of each record of these crates, by its name."""
    parts = {}
    for text in sources(crates, ["src"]):
        starts = [(found.start(), found[1]) for found in re.finditer(r"\bfn (\w+)", text)] + [(len(text), "")]
        for (start, name), (end, _) in zip(starts, starts[1:]):
            parts.setdefault(name, set()).update(re.findall(r"\bensures (\w+) \{", text[start:end]))
    for text in sources(crates, ["specs"]):
        for record in re.split(r"(?=^ *(?:pub record|abbrev)|^--)", text, flags=re.M):
            named = re.match(r"( *)pub record (\w+)", record)
            if named:
                fields = re.findall(rf"^{named[1]}  pub (\w+) :", record, flags=re.M)
                parts.setdefault(named[2], set()).update(fields)
    return parts


def judge_row(row, crates, parts, words):
    """Judges the clauses, names and paths of a row."""
    where = f"docs/PROVED.md: {crates[0]}"
    for name, clauses in re.findall(r"`([\w:]+)`: ((?:`\w+`(?:, )?)+)", row):
        known = parts.get(name.split("::")[-1], set())
        for clause in re.findall(r"\w+", clauses):
            judge(clause in known, f"{where}: {name} has no {clause}, but {' '.join(sorted(known))}")
    for named in re.findall(r"`(?:\w+::)*(\w+)`", row):
        judge(named in words or named.startswith("constriction"), f"{where} has no {named}")
    for path in re.findall(r"`((?:specs|proofs)/\w+\.antt)`", row):
        judge(any(os.path.exists(f"{TOP}/crates/{it}/{path}") for it in crates), f"{where} has no {path}")
    for path in re.findall(r"`((?:tests|bench)/[\w.-]+)`", row):
        judge(os.path.exists(f"{TOP}/{path}"), f"{where}: there is no {path}")


def test():
    """Judges the rows of each section that names crates."""
    for section in re.split(r"^## ", read("docs/PROVED.md"), flags=re.M)[1:]:
        crates = re.findall(r"`(constriction\w*)`", section.splitlines()[0])
        if not crates:
            continue
        parts = parts_of(BELOW + crates)
        words = set(re.findall(r"\w+", " ".join(sources(BELOW + crates + TESTS, ["src", "specs", "proofs"]))))
        for row in re.findall(r"^\| (.*) \|$", section, flags=re.M):
            judge_row(row, crates, parts, words)
