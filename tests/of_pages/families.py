"""The steps for a family of distributions name the files to change by hand, and tools/families writes the other ones."""

from __future__ import annotations

import re
import sys

from judging import TOP, judge, read

sys.path.append(f"{TOP}/tools")
import distributions  # noqa: E402
import family_texts  # noqa: E402

PAGE = "docs/ADDING_A_MODEL.md"
# The most files that a new family changes or adds by hand, with those that only mention one.
MOST = 15
# Files that mention a family as an example, and don't change with a new one.
MENTIONS = {PAGE, "crates/constriction_models/src/families.rt", "examples/python/sampled_latent.py"}


def paths(text):
    """Yields the paths of a table's cell: `FOLDER/{A,B}.END` stands for two files."""
    for path in re.findall(r"`([^`]+)`", text):
        before, _, rest = path.partition("{") if "{" in path else (path, "", "}")
        inner, _, after = rest.partition("}")
        yield from (f"{before}{it}{after}" for it in inner.split(","))


def steps():
    """Compares the files of the steps with those that have a family's name outside of texts that scripts write."""
    text = read(PAGE).partition("\n## A family of distributions\n")[2]
    cells = re.findall(r"^\|.*\|(.*)\|$", text, flags=re.M)[2:]
    listed = [it for cell in cells for it in paths(cell)]
    (name, family), (other, other_family) = [*distributions.FAMILIES.items()][1:3]
    wanted = {it.replace("NAME", name).replace("TYPE", family.type) for it in listed} | MENTIONS
    found = set(family_texts.by_hand(distributions.FAMILIES, name))
    judge(found == wanted, f"{PAGE}: files to change by hand, not in the steps or not there: {found ^ wanted}")
    judge(len(found) <= MOST, f"{PAGE}: {len(found)} files name a family, more than {MOST}")
    wanted = {it.replace("NAME", other).replace("TYPE", other_family.type) for it in listed}
    found = set(family_texts.by_hand(distributions.FAMILIES, other))
    judge(wanted <= found, f"{PAGE}: the steps name files without the family: {wanted - found}")
    judge(f"You change or add {len(listed)} files" in text, f"{PAGE}: the steps name {len(listed)} files")
    written = {(kind == "file", path) for kind, path, _, _ in family_texts.rendered(distributions.FAMILIES)}
    whole = {path for is_whole, path in written if is_whole and f"/{other}" in path}
    parts = {path for is_whole, path in written if not is_whole}
    said = f"writes {len(whole)} more", f"adds the family to {len(parts)} files"
    for it in said:
        judge(it in re.sub(r"\s+", " ", text), f"{PAGE} doesn't say: {it}")


def planted():
    """Checks that a planted fourth family comes into each file, once, and in texts alone that scripts write."""
    before = {path: read(path) for path in family_texts.files_of(distributions.FAMILIES)}
    judge(family_texts.changed(distributions.FAMILIES, before) == before, "a file isn't what tools/families writes")
    name, likeness = "planted", [*distributions.FAMILIES.values()][-1]
    family = likeness._replace(type="Planted", standard="Planted", kind=name, adjective=name)
    tables = distributions.FAMILIES, distributions.FORMULAS, distributions.REACH, distributions.STEPS
    for table, value in zip(tables, (family, family.formula, family.reach, 1024 // family.reach)):
        table[name] = value
    try:
        after = family_texts.changed(distributions.FAMILIES, before)
        judge(family_texts.changed(distributions.FAMILIES, after) == after, "tools/families writes a family twice")
        blocks = [*family_texts.rendered(distributions.FAMILIES)]
        for path, text in after.items():
            own = [it for it in distributions.FAMILIES if f"/{it}" in path and path in before]
            judge(own or text != before.get(path), f"tools/families doesn't write a fourth family into {path}")
            left = family_texts.without_texts([it for it in blocks if it[1] == path], text)
            judge(name not in left.lower(), f"a fourth family is in {path} outside of texts of tools/families")
    finally:
        for table in tables:
            del table[name]


def test():
    """Judges the steps, and a planted family."""
    steps()
    planted()
