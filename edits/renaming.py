"""Texts without the names that they declare: two texts that differ only by a renaming become equal."""

import collections
import functools
import re

WORDS = re.compile(r"([\w']+)")
# The names that a type declares besides its own: its fields, and the variants of an enum.
TYPE = re.compile(r"\b(struct|enum|union|type|const|static) (\w+)")
FIELD = re.compile(r"[{,(] ?(?:pub(?:\([^)]*\))? )?(\w+):(?!:)")
CASE = re.compile(r"[{,] ?([A-Z]\w*)")
TRAIT = re.compile(r"\btrait (\w+)")
GHOST = re.compile(r"\bghost (\w+):")
METHOD = re.compile(r"\bfn (\w+)")
# A field of a record or a case of a data type, in a file of specs/.
FIELD_OF_RECORD = re.compile(r"^ +(?:pub )?([\w'-]+) :", re.MULTILINE)


def declared_by_type(text):
    """Returns the names that a type, an alias or a constant declares."""
    found = TYPE.search(text)
    if not found:
        return set()
    fields = FIELD.findall(text) if found[1] in ("struct", "enum", "union") else []
    return {found[2], *fields, *(CASE.findall(text) if found[1] == "enum" else [])}


def declared_by_trait(text):
    """Returns the names of a trait and of the ghost members that it declares."""
    return {*TRAIT.findall(text), *GHOST.findall(text)}


def stand_ins(name, related, whole):
    """Returns a replacement for a trait that is outside of the texts, and those of its ghost members by name.

    `related` has the names of the traits that supertraits connect with the trait, and `whole` has the texts of traits
    with the members of their supertraits. The trait's replacement has its methods. A member's has those of all related
    traits, the member's type, and its place among members of this type. A trait without methods has an empty
    replacement.
    """
    methods = " ".join(sorted(METHOD.findall(whole[name])))
    all_methods = " ".join(sorted({method for it in related for method in METHOD.findall(whole[it])}))
    texts = sorted({line for it in related for line in whole[it].split("\n") if GHOST.search(line)})
    own, types, members = {GHOST.search(it)[1] for it in texts}, collections.defaultdict(list), {}
    for text in texts:
        types[replaced(GHOST.sub("", text), own, lambda _: "§")].append(GHOST.search(text)[1])
    for of_type, of_names in types.items():
        for place, member in enumerate(of_names):
            members[member] = f"§({all_methods}).{of_type}.{place}"
    return methods and f"§({methods})", members


def without_names(texts, names, others):
    """Returns texts in an order that no renaming changes, with places for names.

    The place of a name's first use replaces the name. The other names get their replacements, or such places if these
    are empty.
    """
    names = names | {it for it in others if not others[it]}
    texts = [replaced(text, others.keys() - names, others.get) for text in texts]
    alike, places, found = collections.defaultdict(list), {}, []
    for text in texts:
        alike[nameless(text, names)].append(text)
    for _, left in sorted(
        alike.items(), key=lambda it: (len(it[1]), it[0])
    ):  # other texts decide the order of equal ones
        left.sort()
        while left:
            text = min(left, key=lambda it: placed(it, names, dict(places))) if len(left) > 1 else left[0]
            left.remove(text)
            found.append(placed(text, names, places))
    return found


@functools.lru_cache(maxsize=None)
def split(text):
    """Returns a list that alternates words and the texts between them, and the places of words that can be replaced.

    A called function keeps its name, as does a function after its type, because its contract isn't among the texts.
    """
    parts = WORDS.split(text)
    places = [
        at
        for at in range(1, len(parts), 2)
        if parts[at][:1].isupper() or not (parts[at + 1].startswith("(") or parts[at - 1].endswith("::"))
    ]
    return parts, places


def nameless(text, names):
    """Returns a text without these names."""
    return replaced(text, names, lambda name: "§")


def placed(text, names, places):
    """Returns a text with the places of names, and adds the places of new ones."""
    return replaced(text, names, lambda name: f"§{places.setdefault(name, len(places))}")


def replaced(text, names, of_name):
    """Returns a text in which `of_name` replaces these names."""
    parts, places = split(text)
    parts = list(parts)
    for at in places:
        if parts[at] in names:
            parts[at] = of_name(parts[at])
    return "".join(parts)
