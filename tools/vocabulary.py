"""The names in the repository's sources: labels of clauses, names of functions, and names of definitions."""

import os
import re

FUNCTION = re.compile(r"\bfn (\w+)")
CLAUSE = re.compile(r"\b(?:ensures|requires)\*?\s+(\w+)\s*\{")
DEFINED = re.compile(r"(?:unfoldable )?(?:abbrev )?(?:pub )?(?:(?:record|data) ([^\s:({]+)|([^\s:({]+) :(?=\s|$))")
LABELS = "tools/labels.txt"


def read(path):
    with open(path, encoding="utf-8") as file:
        return file.read()


def files(folder, ending):
    """Returns the paths of a folder's files whose names have this ending, in order."""
    return sorted(f"{at}/{name}" for at, _, names in os.walk(folder) for name in names if name.endswith(ending))


def code_of(text):
    """Returns a source's text without its comments."""
    return re.sub(r"//.*$", "", text, flags=re.M)


def found_in(top, paths, names_of):
    """Returns the names that `names_of` finds in the texts of files, each with the files that have it."""
    found = {}
    for path in paths:
        for name in names_of(read(path)):
            found.setdefault(name, set()).add(os.path.relpath(path, top))
    return found


def labels(top):
    """Returns the labels of the clauses of all crates, each with its files."""
    paths = [
        path for crate in sorted(os.listdir(f"{top}/crates")) for path in files(f"{top}/crates/{crate}/src", ".rt")
    ]
    return found_in(top, paths, lambda text: CLAUSE.findall(code_of(text)))


def functions(top, crates):
    """Returns the names of the functions of some crates, each with its files."""
    paths = [path for crate in crates for path in files(f"{top}/crates/{crate}/src", ".rt")]
    return found_in(top, paths, lambda text: FUNCTION.findall(code_of(text)))


def definitions(top):
    """Returns the names of the definitions of all crates, each with its files."""
    paths = [
        path for crate in sorted(os.listdir(f"{top}/crates")) for path in files(f"{top}/crates/{crate}/specs", ".antt")
    ]
    return found_in(top, paths, names_in)


def names_in(text):
    """Yields the names that a file of specs/ defines: at the left margin, or one step inside a `module _`."""
    inner = [0]  # the indents at which definitions begin: the margin, and that of each module around
    for line in re.sub(r"(?ms)^( *module _.*?)\bwhere$", lambda it: it[1].replace("\n", " "), text).splitlines():
        bare = line.lstrip()
        if not bare or bare.startswith("--"):
            continue
        indent = len(line) - len(bare)
        while inner[-1] > indent:
            inner.pop()
        if indent == inner[-1] and bare.startswith("module _"):
            inner.append(indent + 2)
        elif indent == inner[-1] and DEFINED.match(bare):
            defined = DEFINED.match(bare)
            yield defined[1] or defined[2]


def sections(top):
    """Yields the sections of the file of labels: a heading, and rows of labels with what their clauses state."""
    for part in re.split(r"^\[", read(f"{top}/{LABELS}"), flags=re.M)[1:]:
        heading, *lines = part.strip().split("\n")
        yield heading.rstrip("]"), [
            (names.split(", "), said) for names, said in (line.split(": ", 1) for line in lines)
        ]


def described(top):
    """Returns the labels of the file of labels, in order."""
    return [label for _, rows in sections(top) for names, _ in rows for label in names]
