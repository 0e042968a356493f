"""The last parts of the checker's names for functions, by the sources.

They are `function` if the crate has only one function of that name, and otherwise `module::function`, `Type::method`,
`TypeTraitArguments::method`, or `Type+ARGUMENTS::method` for a method of a type with certain arguments, or of a type's
alias. If several modules have a type of that name, the module stands before it.
"""

import functools
import re

from edit import read
from items import IN_ANGLES, items
from layout import without_comments
from sources import files_below

HEADER = re.compile(r"(?:unsafe )?impl\b(.*?)(?: where\b.*)? ?\{\}?")
TRAIT = re.compile(r"(?:pub(?:\([^)]*\))? )?(?:unsafe )?trait (\w+)")
ALIAS = re.compile(r"^(?:pub(?:\([^)]*\))? )?type (\w+)", re.MULTILINE)
# The checker also has functions of these names that no source shows.
DERIVED = {"clone", "default", "drop", "eq", "fmt", "hash", "left_cumulative_and_reciprocal"}
# A lifetime, a reference, a slice or array, or a word.
PART = re.compile(r"'\w+|&mut\b|&|\[|\w+")


@functools.lru_cache(maxsize=None)
def functions(crate_folder):
    """Returns the functions of a crate that have a body, each with its file."""
    files = [it for it in files_below(f"{crate_folder}/src") if it.endswith(".rt")]
    return [
        (file, it)
        for file in files
        for it in items(without_comments(read(file)))
        if it.kind == "fn" and it.text.endswith("}")
    ]


@functools.lru_cache(maxsize=None)
def modules(crate_folder):
    """Returns the names of a crate's modules."""
    return {
        part.removesuffix(".rt")
        for file in files_below(f"{crate_folder}/src")
        for part in file[len(crate_folder) + 5 :].split("/")
    }


@functools.lru_cache(maxsize=None)
def aliases(crate_folder):
    """Returns the names that a crate's sources give to types."""
    files = [it for it in files_below(f"{crate_folder}/src") if it.endswith(".rt")]
    return frozenset(it for file in files for it in ALIAS.findall(without_comments(read(file))))


def name_of(crate_folder, path, function):
    """Returns the last part of the name of each function of `src/PATH.rt` with this name.

    The checker takes the name of a module for the module.
    """
    named = [(file, it) for file, it in functions(crate_folder) if it.name == function]
    if len(named) == 1 and function not in DERIVED and function not in modules(crate_folder):
        return [function]
    module, own = [] if path in ("lib", "main") else path.split("/"), f"{crate_folder}/src/{path}.rt"
    owners = [(file, owner(it.head, aliases(crate_folder))) for file, it in named]
    elsewhere = [of for file, of in owners if file != own]
    here = [[*module, *of] if of in elsewhere else of or module for file, of in owners if file == own]
    return sorted({"::".join([*it, function]) for it in here})


def owner(head, named=frozenset()):
    """Returns the part of a name for the impl or trait of a header, or nothing without one.

    `named` has the names that the crate gives to types.
    """
    if not head:
        return []
    if trait := TRAIT.match(head):
        return [trait[1]]
    own, rest = parameters(HEADER.match(head)[1].strip())
    of_trait, _, of_type = rest.rpartition(" for ")
    if of_trait in ("", "Drop"):
        name, *arguments = parts(of_type)
        return [name if set(arguments) <= own and name not in named else "+".join([name, *arguments])]
    # The name doesn't repeat a trait's argument that is the type itself.
    of_type, of_trait = parts(of_type), parts(of_trait)
    told = [*of_type, *(it for it in of_trait if [it] != of_type)]
    return ["".join(it[0].upper() + it[1:] for it in told if it not in own)]


def parameters(header):
    """Returns the names of an impl's type parameters, and the text after them."""
    if not header.startswith("<"):
        return set(), header
    depth, at = 0, 0
    for at, sign in enumerate(header):
        depth += (sign == "<") - (sign == ">" and header[at - 1] not in "-=")
        if not depth:
            break
    inside = re.sub(r"[-=]>", "", header[1:at])
    while IN_ANGLES.search(inside):
        inside = IN_ANGLES.sub("", inside)
    return {it.partition(":")[0].replace("const ", "").strip() for it in inside.split(",")}, header[at + 1 :].strip()


def parts(text):
    """Returns the words of a type or trait in a name, without paths and lifetimes."""
    signs = {"&": "ref", "&mut": "refMut", "[": "slice"}
    found = PART.findall(re.sub(r"\w+::|\w+ = ", "", text))
    return [signs.get(it, it) for it in found if not it.startswith("'")]
