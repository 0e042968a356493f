"""Lists of new names, of which tools/rename reads one."""

import os
import re

from repository import read

FACADE = "tools/facade.txt"  # the table of the facade's re-exports
NAME = re.compile(r"\w[\w']*")
# The list of names that a line of imports has from a file of specs/, and the start of a definition there.
IMPORTS = r"\bspecs\.(?:[\w.]+\.)?(?:{})\.\{{[^}}]*(?<![\w'-]){}(?![\w'-])[^}}]*\}}"
DEFINES = r"^ *(?:(?:pub|abbrev|unfoldable) )*(?:(?:record|data) )?{}(?![\w'-])"


def alone(names):
    """Returns what finds each of some names where it is no part of another."""
    return rf"(?<![\w'])(?:{'|'.join(map(re.escape, sorted(names, key=len, reverse=True)))})(?![\w'])"


class Name:
    """A line of a list: an old name, a new one, and where the old one is meant."""

    def __init__(self, words):
        """Reads the words of a line."""
        self.old, self.new, *scopes = words
        self.modules = [scopes[at + 1] for at, it in enumerate(scopes) if it == "in"]
        self.paths = [it for it in scopes if "/" in it]
        modules, old = "|".join(self.modules), re.escape(self.old)
        self.imports, self.defines = re.compile(IMPORTS.format(modules, old)), re.compile(DEFINES.format(old), re.M)
        self.module = re.compile(rf"/specs/(?:.*/)?(?:{modules})\.antt$")

    def is_everywhere(self):
        return not self.modules and not self.paths

    def how_meant(self, path, text):
        """Returns how a file means the name: as a name ('all'), as a name that is a word too ('type'), also where this
        stands in paths of names, or as a word that is no part of such a path ('word'); or ''."""
        if self.is_everywhere():
            return "all"
        if any(path.startswith(it) for it in self.paths):
            return "type"
        if path.endswith(".edits"):  # edits mean what their source means
            path = path.replace("/edits/", "/src/")[: -len(".edits")] + ".rt"
            text = read(path) if os.path.exists(path) else ""
        is_own = self.module.search(path) and self.defines.search(text)
        return "word" if self.modules and (is_own or self.imports.search(text) or path == FACADE) else ""

    def is_of(self, line):
        """Returns whether a line of the facade's table speaks of a module that defines the name."""
        return line.partition(" ")[0].endswith(tuple(f".{it}" for it in self.modules))


class NameList:
    """The lines of a list: names, paths, and texts of some files."""

    def __init__(self, path, groups=()):
        """Reads the lines of some groups, or all lines."""
        self.names, self.paths, self.texts, group = [], [], [], ""
        for line in read(path).split("\n"):
            heading = re.match(r"# ---- (\w+)", line)
            group = heading[1] if heading else group
            words = line.partition("# ")[0].split() if not line.startswith("#") else []
            if words and (not groups or group in groups):
                self.add(words)

    def add(self, words):
        """Adds a line."""
        if len(words) < 2:
            raise ValueError(f"'{' '.join(words)}' is no old name and new one")
        if NAME.fullmatch(words[0]):
            self.names.append(Name(words))
        elif "/" in words[0] and len(words) == 2:
            self.paths.append(tuple(words))
        else:
            self.texts.append(tuple(words))

    def pairs(self):
        return [(it.old, it.new) for it in self.names]
