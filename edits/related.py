"""Traits with the members of their supertraits, so that it doesn't matter which of these declares a member."""

import re

from renaming import GHOST, nameless

ANGLES = {"<": 1, ">": -1}
# The parts of a trait's header: the trait with its parameters, its supertraits, and its conditions.
PARTS = re.compile(r"(.*?\btrait \w+(?:§\d+§)?)(?:: (.*?))?( where\b.*?)? ?\{")
PARAMETERS = re.compile(r"§(\d+)§")


def parts_of(head):
    """Returns a trait's name with its parameters, the list of its supertraits, and its conditions."""
    kept, depth, bare = [""], 0, ""
    for at, it in enumerate(head):
        arrow = head[at - 1 : at + 1] in ("->", "=>")
        depth += 0 if arrow else ANGLES.get(it, 0)
        if depth == 0 and it == ">" and not arrow:
            kept[-1] += it
            bare += f"§{len(kept) - 1}§"
            kept.append("")
        elif depth:
            kept[-1] += it
        else:
            bare += it
    found = PARTS.match(bare)
    named, above, conditions = (PARAMETERS.sub(lambda it: kept[int(it[1])], part or "") for part in found.groups())
    return (
        named,
        [PARAMETERS.sub(lambda it: kept[int(it[1])], it) for it in (found[2] or "").split(" + ") if it],
        conditions,
    )


def supertraits(traits, name):
    """Returns the supertraits of a trait that have no parameters, directly or through others, if they are in `traits`."""
    names = [name]
    for it in names:
        names += [above for above in parts_of(traits[it].head)[1] if above in traits and above not in names]
    return names[1:]


def whole_of(traits, name):
    """Returns a trait's text with the members of its supertraits, in an order that doesn't depend on where they are."""
    above = supertraits(traits, name)
    named, _, conditions = parts_of(traits[name].head)
    others = {it for of_name in (name, *above) for it in parts_of(traits[of_name].head)[1]} - set(above)
    members = [re.sub(r"\bSelf\.(?=\w)", "", it) for of_name in (name, *above) for it in traits[of_name].members]
    ghosts = {it[1] for it in map(GHOST.search, members) if it}
    members.sort(key=lambda it: (nameless(it, ghosts), it))
    return "\n".join([f"{named}: {' + '.join(sorted(others))}{conditions} {{", *members])


def related(traits, name):
    """Returns the names of the traits that supertraits without parameters connect with a trait."""
    names = {name}
    while True:
        more = {it for it in traits if {it, *supertraits(traits, it)} & names}
        more |= {above for it in names | more for above in supertraits(traits, it)}
        if more <= names:
            return names
        names |= more
