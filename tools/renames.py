"""Renamed names, by a file of renames."""

import collections
import os
import re

from items import words_of
from repository import read
from sources import USE

WORD = r"(?<![\w'-]){}(?![\w'-])"
NAME = r"[\w'-]+"


def module_of(file):
    """Returns the name by which other files use a file of specs/."""
    return "Rattle." + os.path.splitext(file)[0].replace("/", ".")


def lines_of(path):
    """Returns the words of each line of a file, or nothing if the file is absent. `#` starts a comment."""
    lines = read(path).split("\n") if os.path.exists(path) else []
    return list(filter(None, (line.partition("#")[0].split() for line in lines)))


class Renames:
    """Lines `OLD NEW`, or `OLD NEW SCOPE..` for a name that only these files rename: a file of specs/, given as a
    module, with its users, or a path below crates/, which has a slash."""

    def __init__(self, path):
        """Reads a file of renames, which may be absent."""
        self.new, self.within, self.below = {}, collections.defaultdict(dict), collections.defaultdict(dict)
        for old, new, *scopes in map(self.checked, lines_of(path)):
            for names in [(self.below if "/" in it else self.within)[it] for it in scopes] or [self.new]:
                if old in names or new in names.values():
                    raise ValueError(f"renamed: '{old} {new}' repeats a name of another line")
                names[old] = new

    def checked(self, words):
        """Returns the words of a line, if they are a name, its new name, modules and paths."""
        if (
            len(words) < 2
            or words[0] == words[1]
            or not all(re.fullmatch(NAME, it) for it in words[:2])
            or not all("." in it or "/" in it for it in words[2:])
        ):
            raise ValueError(f"renamed: '{' '.join(words)}' is not a name and its new name")
        return words

    def refuse_taken(self, texts, defined, revision):
        """Fails if that commit already defines a new name, or if a text has both names.

        Texts are given by their files.
        """
        taken = [
            (*pair, f"{revision} has a definition {pair[1]} already") for pair in self.new.items() if pair[1] in defined
        ]
        for file in sorted(texts):
            words, meant = words_of(texts[file]), {**self.new, **self.meant_in(file, texts[file])}
            taken += [
                (*pair, f"{file} has both names at {revision}") for pair in meant.items() if words.issuperset(pair)
            ]
        if taken:
            old, new, why = taken[0]
            raise ValueError(f"renamed: '{old} {new}', but {why}: the comparison can't tell the two apart")

    def meant_in(self, file, text):
        """Returns the names that a text uses from modules, or defines as one, or has at a path, with their new names."""
        used = collections.defaultdict(set)
        for path, names in USE.findall(text) if self.within else []:
            used[path.strip(" .")] |= words_of(names)
        here = {
            module: names if module == module_of(file) else {it: names[it] for it in names if it in used[module]}
            for module, names in self.within.items()
        }
        at = [names for path, names in self.below.items() if file.startswith(path)]
        return {old: new for names in (*here.values(), *at) for old, new in names.items()}

    def applied(self, text, file=""):
        """Returns an earlier text with the new names."""
        names = {**self.new, **self.meant_in(file, text)}
        if not names:
            return text
        return re.sub(WORD.format(f"(?:{'|'.join(map(re.escape, names))})"), lambda it: names[it[0]], text)
