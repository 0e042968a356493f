"""The stamps of edits that were refused: a line of edits/STAMPS for each function that has edits."""

import collections
import hashlib
import os
import re

from edit import read
from renaming import without_names
from repository import ROOT
from sources import Meaning

STAMPS = f"{ROOT}/edits/STAMPS"
LINE = re.compile(r"(\w+) (\S+) (\w+) ([0-9a-f]{16}) (\S+)\n")

# The edits of a stamp: the edits of crates/CRATE/edits/PATH.edits with a function's name in their heading.
Key = collections.namedtuple("Key", "crate path function")
# The checksum of the texts that a trial of these edits depends on, and the kit that tried them.
Stamp = collections.namedtuple("Stamp", "sum kit")


def stamps_of(crates, name, edits, version):
    """Returns the stamps of a crate's edits by key."""
    kit, logic = kit_and_logic(version)
    meaning, by_key = Meaning(crates, name), collections.defaultdict(list)
    for edit in edits:
        by_key[Key(name, edit.path, edit.function)].append(edit)
    return {key: Stamp(sum_of([logic, *texts_of_trial(meaning, name, of_key)]), kit) for key, of_key in by_key.items()}


def texts_of_trial(meaning, crate, edits):
    """Returns the texts that a trial of edits depends on, without the names of definitions, types and fields.

    These are the lines of the edits, the changed functions, and all that gives their words a meaning. An edit of a text
    outside of functions depends on all items of its source.
    """
    texts = {"\n".join(filter(None, it.lines)) for it in edits}
    for edit in edits:
        for file in {*edit.spans, f"src/{edit.path}.rt"}:
            items = meaning.sources.files.get(f"{crate}/{file}")
            if items is None:  # a file of specs/ or proofs/
                texts.add(read(f"{edit.folder}/{file}"))
                continue
            named = [it for it in items if it.name in edit.functions and it.kind != "header"]
            for it in items if file in edit.spans and edit.is_apart or not named else named:
                texts |= meaning.of(it, f"{crate}/{file}")
    names = meaning.declared_in(texts)
    return without_names(texts, names, meaning.others(names))


def kit_and_logic(version):
    """Returns the kit's name and the checksum of its logic, from the output KIT logic SUM of `rt version`."""
    found = re.fullmatch(r"(\S+) (logic [0-9a-f]+)", version.strip())
    if not found:
        raise ValueError(f"rt version says '{version.strip()}', not a kit and the checksum of its logic")
    return found.groups()


def sum_of(texts):
    """Returns the checksum of texts."""
    return hashlib.sha256("\n\n".join(texts).encode()).hexdigest()[:16]


def kept_stamps(path=STAMPS):
    """Returns the stamps of a file by key."""
    text = read(path) if os.path.exists(path) else ""
    if LINE.sub("", text):
        raise ValueError(
            f"edits/STAMPS has a line that is no stamp, perhaps from a merge: {LINE.sub('', text).split(chr(10))[0]}"
        )
    return {Key(*line[:3]): Stamp(*line[3:]) for line in LINE.findall(text)}


def put_stamps(stamps, path=STAMPS):
    """Writes stamps by key, and removes the stamps that are None. Other lines stay."""
    stamps = {**kept_stamps(path), **stamps}
    with open(path + ".new", "w", encoding="utf-8") as out:
        out.write("".join(f"{' '.join([*key, *stamps[key]])}\n" for key in sorted(stamps) if stamps[key]))
    os.replace(path + ".new", path)
