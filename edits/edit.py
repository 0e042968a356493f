"""Edits: blocks of a file of edits, each of which makes a source wrong."""

import collections
import os
import re

HEADING = re.compile(r"## (\w+)(, harmless)?: (\S.*)")
# The first line of a function or of a constant, but not a const parameter on a line of its own.
DECLARATION = re.compile(r"( *)(?:[a-z]+(?:\([^)]*\))? |extern \"C\" )*(?:fn|const) (\w+)\b(?!: \w+[,>]?$)")
MEMBER = re.compile(r" *ghost (\w+) =")


def read(path):
    with open(path, encoding="utf-8") as file:
        return file.read()


def function_at(lines, number):
    """Returns the name of the function or constant with this line of a formatted source, or '' outside of them."""
    indent = len(lines[number]) - len(lines[number].lstrip())
    for at in range(number, -1, -1):
        found = DECLARATION.match(lines[at])
        if found and (at == number or len(found[1]) < indent):
            return found[2]
        if re.match(r"}|(pub )?(impl|trait)\b", lines[at]):
            return ""
    return ""


class BadEdit(ValueError):
    """An edit that cannot be applied, or whose heading does not name a function that it changes."""


class Edit:
    """A block of `edits/PATH.edits`: the functions that it changes in `src/PATH.rt`, and the changed span of each file
    with its new text.

    If the edit changes something that a function of `src/PATH.rt` returns, such as a static of another file, the prover
    has to refuse that function. A ghost member counts as a function. `is_apart` is true if the edit changes a text
    outside of functions, such as an impl's header, a ghost member or a definition. Then the checker has no line about
    this edit alone.
    """

    def __init__(self, crate_folder, path, lines):
        """Reads a block, and fails if it can't be applied."""
        heading = HEADING.fullmatch(lines[0])
        self.folder, self.path, self.lines = crate_folder, path, lines[1:]
        self.name = f"{path} {lines[0].removeprefix('## ')}"
        if not heading:
            raise BadEdit(
                f"{self.name}: a heading is '## FUNCTION: WHAT IS WRONG', or '## FUNCTION, harmless: WHAT IT CHANGES'"
            )
        self.function, self.is_harmless = heading[1], bool(heading[2])
        self.functions, self.spans, self.is_apart = set(), {}, False
        self.said, self.is_settled = (
            "",
            False,
        )  # the last check's output on the edit, and whether another check is useless
        for file, text in self.edited_texts().items():
            self.spans[file] = difference(read(f"{crate_folder}/{file}"), text)
        if f"src/{path}.rt" not in self.spans and re.search(
            rf"\bfn {self.function}\b", read(f"{crate_folder}/src/{path}.rt")
        ):
            self.functions.add(self.function)
        if self.function not in self.functions:
            raise BadEdit(
                f"{self.name}: its heading must begin with a function or ghost member that it changes: {', '.join(sorted(self.functions))}"
            )

    def edited_texts(self):
        """Returns the texts of the changed files, after all pairs of lines."""
        file, old, texts = f"src/{self.path}.rt", "", {}
        for line in filter(None, self.lines):
            if line.startswith("file: "):
                file = line[len("file: ") :].strip()
            elif line.startswith("old: "):
                old = line[len("old: ") :]
            elif line.startswith("new:"):
                self.replace(texts, file, old, line[len("new:") :].removeprefix(" "))
                old = ""
            else:
                raise BadEdit(f"{self.name}: a line begins with none of 'file: ', 'old: ' and 'new:': {line}")
        if not texts:
            raise BadEdit(f"{self.name}: it has no 'old:' and 'new:' pair")
        return texts

    def replace(self, texts, file, old, new):
        """Applies one pair to the texts."""
        if not re.match(r"(src|specs|proofs)/", file) or ".." in file or not os.path.isfile(f"{self.folder}/{file}"):
            raise BadEdit(f"{self.name}: there is no {file} in src/, specs/ or proofs/")
        text = texts.get(file) or read(f"{self.folder}/{file}")
        lines = text.split("\n")
        starts = [it.start() for it in re.finditer(re.escape(old), text)] if old else []
        if len(starts) > 1:  # then the text has to be in the heading's function once
            starts = [it for it in starts if function_at(lines, text[:it].count("\n")) == self.function]
        if len(starts) != 1:
            raise BadEdit(
                f"{self.name}: an 'old:' text is in {file} {text.count(old) if old else 0} times, but has to be once in it or in the function"
            )
        number = text[: starts[0]].count("\n")
        function = function_at(lines, number) if file.startswith("src/") else ""
        member = MEMBER.match(lines[number])
        self.is_apart |= not function
        self.functions.update([function] if function else [member[1]] if member else [])
        texts[file] = text[: starts[0]] + new + text[starts[0] + len(old) :]

    def fits(self, other):
        """Returns whether one check can judge both edits: they change different functions, in separate places."""
        return not (self.is_apart or other.is_apart or self.functions & other.functions or self.meets(other))

    def meets(self, other):
        """Returns whether both edits change the same place."""
        both = self.spans.keys() & other.spans.keys()
        return any(self.spans[it][1] >= other.spans[it][0] and other.spans[it][1] >= self.spans[it][0] for it in both)


def edits_of(folder):
    """Returns the edits of a crate, and faults: edits that can't be applied, and files that aren't files of edits."""
    found, faults, names = [], [], collections.Counter()
    for at, _, files in sorted(os.walk(f"{folder}/edits")):
        for file in sorted(files):
            path = os.path.relpath(f"{at}/{file}", f"{folder}/edits")
            if not path.endswith(".edits"):
                faults.append(f"{path}: it is no file of edits: its name doesn't end in .edits")
                continue
            for block in blocks(read(f"{at}/{file}")):
                try:
                    found.append(Edit(folder, path[: -len(".edits")], block))
                    names[found[-1].name] += 1
                except BadEdit as fault:
                    faults.append(str(fault))
    faults += [f"{name}: {count} edits have this heading" for name, count in names.items() if count > 1]
    return found, faults


def blocks(text):
    """Returns the lines of each block of a file of edits.

    A block begins with its heading, except lines above the first one.
    """
    found = []
    for line in text.rstrip("\n").split("\n"):
        if line.startswith("#") or not found:
            found.append([])
        found[-1].append(line)
    return found


def difference(before, after):
    """Returns the begin and end of the span in which a text differs from another one, and the other one's span."""
    start = shared(before, after)
    same = shared(before[start:][::-1], after[start:][::-1])
    return start, len(before) - same, after[start : len(after) - same]


def shared(one, other):
    """Returns the length of the common beginning of two texts."""
    low, high = 0, min(len(one), len(other))
    while low < high:
        middle = (low + high + 1) // 2
        low, high = (middle, high) if one[:middle] == other[:middle] else (low, middle - 1)
    return low


def apply(edits, crate_folder):
    """Writes the edited texts into a copy of the crate.

    A file's last span is written first, so other places stay valid.
    """
    for file, (start, end, new) in sorted((it for edit in edits for it in edit.spans.items()), reverse=True):
        text = read(f"{crate_folder}/{file}")
        os.unlink(f"{crate_folder}/{file}")  # it may be a link
        with open(f"{crate_folder}/{file}", "w", encoding="utf-8") as out:
            out.write(text[:start] + new + text[end:])


def in_batches(edits, size, fit=Edit.fits):
    """Returns batches of edits. One check can judge a whole batch.

    Edits of the most edited functions come first, and the others fill their batches.
    """
    counts = collections.Counter(name for edit in edits for name in edit.functions)
    batches = []
    for edit in sorted(edits, key=lambda it: -max((counts[name] for name in it.functions), default=0)):
        batch = next((it for it in batches if len(it) < size and all(fit(edit, other) for other in it)), None)
        if batch is None:
            batches.append(batch := [])
        batch.append(edit)
    return batches
