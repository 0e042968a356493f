"""The sources of a crate and of the crates below, and the texts that give the words of an item their meaning."""

import collections
import functools
import os
import re
import subprocess

from edit import read
from items import implemented, is_of_trait, items, words_of
from layout import said_by_definitions, without_comments
from related import related, supertraits, whole_of
from renaming import FIELD_OF_RECORD, declared_by_trait, declared_by_type, stand_ins

# The first line of a definition, or of one of its cases.
DEFINED = re.compile(r"(?:(?:pub|abbrev|unfoldable|record|data|lemma|instance) )*([\w'-]+)")
LABEL = re.compile(r"\b(requires|ensures\*?) [\w']+ \{")
TYPES = ("struct", "enum", "union", "type", "const", "static")
USE = re.compile(r"^ *(?:pub(?:\([^)]*\))? |ghost )*use ([^;{\n]*)(\{[^}]*)?", re.MULTILINE)
# A trait: its header, the texts of its members, and its file.
Trait = collections.namedtuple("Trait", "head members file")
# A ghost member of an impl: its name, its trait, the impl's type, its text, and its file.
Member = collections.namedtuple("Member", "name trait type text file")


def checkout(root, revision, to):
    """Writes the crates of a commit into a folder."""
    archive = subprocess.run(
        ["git", "-C", root, "archive", revision, "crates", "crates.txt"], stdout=subprocess.PIPE, check=True
    )
    subprocess.run(["tar", "-x", "-C", to], input=archive.stdout, check=True)


def texts_of(crates, names):
    """Returns the sources and specs of some crates, without comments, by their paths in crates/."""
    paths = [path for it in names for part in ("src", "specs") for path in files_below(f"{crates.folder(it)}/{part}")]
    return {os.path.relpath(it, f"{crates.root}/crates"): bare(it) for it in paths}


def files_below(folder):
    return [f"{at}/{name}" for at, _, names in os.walk(folder) for name in names]


def bare(path):
    """Returns the text of a file without its comments."""
    return (
        without_comments(read(path))
        if path.endswith(".rt")
        else re.sub(r"^ *--.*\n?", "", read(path), flags=re.MULTILINE)
    )


class Sources:
    """Some sources and files of specs/, by their paths in crates/."""

    def __init__(self, texts):
        self.texts = texts
        self.files = {it: items(texts[it]) for it in texts if it.split("/")[1] == "src"}
        self.blocks = {it: said_by_definitions(texts[it]) for it in texts if it.split("/")[1] == "specs"}

    def items(self):
        return [it for _, it in self.items_by_file()]

    def items_by_file(self):
        return [(file, it) for file, parts in self.files.items() for it in parts]

    def defined(self):
        """Returns the names of definitions in specs/ and of items."""
        return {name for parts in self.blocks.values() for it in parts for name in names_of(it)} | {
            it.name for it in self.items()
        }

    def definitions(self):
        """Returns the definitions of specs/ by name, each with its file."""
        found = collections.defaultdict(set)
        for file, block in ((file, it) for file, parts in self.blocks.items() for it in parts):
            for name in names_of(block):
                found[name].add((block, file))
        return found

    def types(self):
        """Returns types, aliases and constants by name, each with its file. A type also has its `impl Model`."""
        found = collections.defaultdict(set)
        for file, it in self.items_by_file():
            of_trait, of_type = implemented(it.head)
            if it.kind in TYPES and not it.head or of_trait == "Model":
                for name in words_of(of_type) if of_type else [it.name]:
                    found[name].add((f"{it.head} {it.text}", file))
        return found

    def traits(self):
        """Returns each trait by name."""
        members = collections.defaultdict(list)
        for file, it in self.items_by_file():
            if is_of_trait(it):
                members[it.head, file] += [unlabelled(it.text)] if it.kind != "header" else []
        return {implemented(head)[0]: Trait(head, texts, file) for (head, file), texts in members.items()}

    def members(self):
        """Returns the ghost members of impls that some text cites, or whose trait another library declares."""
        texts = [it.text for it in self.items()] + [it for parts in self.blocks.values() for it in parts]
        told = collections.Counter(word for text in texts for word in words_of(text))
        ghosts = [(file, it) for file, it in self.items_by_file() if it.kind == "ghost"]
        own = collections.Counter(it.name for _, it in ghosts)
        declared = {implemented(it.head)[0] for it in self.items() if is_of_trait(it)}
        found = []
        for file, it in ghosts:
            if implemented(it.head)[0] not in declared or told[it.name] > own[it.name] and not is_of_trait(it):
                of_trait, of_type = implemented(it.head)
                head = re.sub(rf"\b{of_trait} for\b", "for", it.head) if of_trait else it.head  # its members tell which
                found.append(Member(it.name, of_trait, of_type, f"{head} {it.text}", file))
        return found

    def used_of(self, libraries):
        """Returns the names that files import from these libraries or from modules of the prover."""
        found = set()
        for path, braces in (it for text in self.texts.values() for it in USE.findall(text)):
            first = re.split(r"[:. ]+", path.removeprefix("Rattle."))[0]
            if first in libraries or "." in path and not path.startswith("Rattle."):
                found |= words_of(f"{path} {braces}")
        return found

    def uses(self, file):
        """Returns the names that a file imports, and the names of imports that it may rename."""
        names, others = set(), set()
        for path, braces in USE.findall(self.texts[file]):
            names |= words_of(braces)
            others |= words_of(braces) if " as " in braces else set()
            if not braces:  # all definitions of a module
                module = path.partition(" as ")[0].strip().removeprefix("Rattle.").replace(".", "/")
                names |= {name for block in self.blocks.get(f"{module}.antt", ()) for name in names_of(block)}
        return names, others


def names_of(block):
    """Returns the names that a part of a file of specs/ defines."""
    return {it[1] for it in map(DEFINED.match, block.split("\n")) if it}


def unlabelled(text):
    """Returns a text without the labels of clauses."""
    return LABEL.sub(r"\1 {", text)


class Meaning:
    """The texts of a crate and of the crates below that give the words of contracts their meaning."""

    def __init__(self, crates, name):
        """Reads the sources of a crate and of the crates below."""
        self.sources = Sources(texts_of(crates, [name, *crates.below(name)]))
        self.definitions, self.types = self.sources.definitions(), self.sources.types()
        self.traits, self.members = self.sources.traits(), self.sources.members()
        libraries = {"std", "core", *(it for used in crates.said.values() for it in used)} - crates.said.keys()
        self.foreign = self.sources.used_of(libraries)
        self.of = functools.lru_cache(maxsize=None)(self.meant_by)
        self.uses = functools.lru_cache(maxsize=None)(self.sources.uses)
        self.named = functools.lru_cache(maxsize=None)(self.named_by)

    def meant_by(self, it, file):
        """Returns an item with all texts that its meaning depends on.

        These are its trait with the supertraits, the ghost members of types that it names if it or the trait cites
        them, and all definitions that one of these texts names, directly or through others.
        """
        words = words_of(f"{it.head} {it.text}")
        traits = self.traits_of(implemented(it.head)[0])
        told = words | (words_of(traits[0][0]) if traits else set())
        members = [
            (member.text, member.file)
            for member in self.members
            if told & {member.name, *self.with_supertrait[member.trait]} and words & words_of(member.type)
        ]
        due = [(f"{it.head} {unlabelled(it.text)}", file), *traits, *members]
        seen = set(due)
        for text in due:
            due += self.named(*text) - seen
            seen |= self.named(*text)
        return {text for text, _ in seen - set(traits)} | self.whole_traits_of(implemented(it.head)[0])

    @functools.cached_property
    def with_supertrait(self):
        """Returns the names of a trait and of the traits that have it as a supertrait, by its name."""
        found = collections.defaultdict(set, {it.trait: {it.trait} for it in self.members})
        for name in self.traits:
            for above in (name, *supertraits(self.traits, name)):
                found[above].add(name)
        return found

    def trait_names_of(self, name):
        """Returns the name of a trait, and then of the traits that its header names, directly or through others."""
        names = [name] if name in self.traits else []
        for it in names:
            names += sorted((words_of(self.traits[it].head) & self.traits.keys()) - set(names))
        return names

    def traits_of(self, name):
        """Returns the texts of these traits, with their files."""
        found = [self.traits[it] for it in self.trait_names_of(name)]
        return [("\n".join([it.head, *it.members]), it.file) for it in found]

    def whole_traits_of(self, name):
        """Returns the texts of these traits with the members of their supertraits. The supertraits have none."""
        names = self.trait_names_of(name)
        above = {it for of_name in names for it in supertraits(self.traits, of_name)}
        return {self.whole[it] for it in names if it not in above}

    @functools.cached_property
    def whole(self):
        """Returns the text of each trait with the members of its supertraits, by name."""
        return {name: whole_of(self.traits, name) for name in self.traits}

    def named_by(self, text, file):
        """Returns the types that a text names, and the named definitions that its file imports or has."""
        used, others = self.uses(file)
        words = words_of(text) | others
        types = (self.types[it] for it in words & self.types.keys())
        definitions = self.definitions
        visible = {
            it for it in words & definitions.keys() if it in used or any(at == file for _, at in definitions[it])
        }
        return set().union(*types, *(definitions[it] for it in visible))

    @functools.cached_property
    def declared(self):
        """Returns the names that each definition, type and trait declares, by its text."""
        found = {text: declared_by_type(text) for of_name in self.types.values() for text, _ in of_name}
        found |= {text: declared_by_trait(text) for text in self.whole.values()}
        return found | {
            text: names_of(text) | set(FIELD_OF_RECORD.findall(text))
            for of_name in self.definitions.values()
            for text, _ in of_name
        }

    def declared_in(self, texts):
        """Returns the names that some of these texts declare, without names of other libraries."""
        return set().union(*(self.declared.get(it, ()) for it in texts)) - self.foreign

    @functools.cached_property
    def stand_ins(self):
        """Returns the replacement of each trait and those of its ghost members, by the trait's name."""
        return {name: stand_ins(name, related(self.traits, name), self.whole) for name in self.traits}

    def others(self, names):
        """Returns the replacements of all other traits and their ghost members, by name."""
        members, found = collections.defaultdict(set), {}
        for name in self.traits.keys() - names:
            found[name], of_members = self.stand_ins[name]
            for member, replacement in of_members.items():
                members[member].add(replacement)
        found = {member: " ".join(sorted(it)) for member, it in members.items()} | found
        return {name: found[name] for name in found.keys() - names - self.foreign}
