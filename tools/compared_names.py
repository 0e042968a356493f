"""Compares the work tree with a commit at which names were others. tools/rename says what each function does."""

import collections
import os
import re
import subprocess
import tempfile

from edit import edits_of
from repository import ROOT, Crates, read
from sources import checkout
from stamps import STAMPS, Key, Stamp, kept_stamps, put_stamps, stamps_of

SIGNS = re.compile(r"\w[\w']*|[^\w\s]")
COMMENT_MARKS = re.compile(r"^ *(?:///|//!|//|--)(?= |$)", re.M)
# Sources that tools/sizes writes, with imports in the order of their names.
WRITTEN = re.compile(r"/small|/u16|_kinds\.rt|_parts\.rt")
PARTS = ("crates", "docs", "tests")
ENDINGS = (".rt", ".antt", ".edits", ".txt", ".md")


def git(*words):
    return subprocess.run(["git", *words], stdout=subprocess.PIPE, check=True).stdout.decode(errors="replace")


# ---- the texts


def check(found, revision):
    """Prints what is another than a name, and returns the status."""
    wanted, used, faults = set(found.pairs()), collections.Counter(), []
    allowed = wanted | {it for old, new, *_ in found.texts for it in zip(signs(old), signs(new)) if it[0] != it[1]}
    news = {new for _, new in wanted} - modules_in(found)
    for path in git("ls-tree", "-r", "--name-only", revision, "--", *PARTS).split("\n"):
        if not path.endswith(ENDINGS):
            continue
        now = moved(path, found)
        if not os.path.isfile(now):
            faults.append(f"{path}: it went")
            continue
        before = git("show", f"{revision}:{path}")
        faults += [f"{path}: {it} stood here already" for it in sorted(news & said_by_code(path, before))]
        other = differing(path, signs(before), signs(read(now)), allowed, used)
        faults += [f"{path}: {other}"] if other else []
    faults += [f"{old} {new}: nothing was renamed" for old, new in sorted(wanted) if not used[old, new]]
    print("".join(f"{it}\n" for it in faults) + f"{sum(used.values())} names are others, {len(faults)} faults")
    return 1 if faults else 0


def modules_in(found):
    """Returns the new names of modules of sources. A module may be called as a type is."""
    return {os.path.basename(new)[: -len(".rt")] for _, new in found.paths if new.endswith(".rt")}


def moved(path, found):
    """Returns where a file is now."""
    for old, new in found.paths:
        if f"{path}/".startswith(f"{old}/") and not os.path.exists(path):
            path = new + path[len(old) :]
    return path


def signs(text):
    """Returns the words and signs of a text, without the marks of comments."""
    return SIGNS.findall(COMMENT_MARKS.sub("", text))


def said_by_code(path, text):
    """Returns the words of a file that stand outside of comments, and of a page those between backticks."""
    mark = "//" if path.endswith((".rt", ".rt.txt")) else "--" if path.endswith(".antt") else ""
    code = re.sub(rf"{mark}.*", "", text) if mark else " ".join(re.findall(r"`[^`\n]*`", text))
    return set(SIGNS.findall(code))


def differing(path, before, now, allowed, used):
    """Returns what differs but for names that may, or ''. Counts those."""
    if WRITTEN.search(path):
        before, now = sorted_alike(before, now, allowed)
    if len(before) != len(now):
        return f"{len(before)} and {len(now)} words and signs"
    for old, new in zip(before, now):
        if old != new and (old, new) not in allowed:
            return f"{old} became {new}"
        used[old, new] += old != new
    return ""


def sorted_alike(before, now, allowed):
    """Returns what went and came, sorted by the names that may differ."""
    before, now = collections.Counter(before), collections.Counter(now)
    went, came = before - now, now - before
    by_name = {old: new for old, new in allowed if went[old] and came[new]}
    return sorted(went.elements(), key=lambda it: by_name.get(it, it)), sorted(came.elements())


# ---- the contracts


def contracts(found, revision):
    """Runs tools/contracts, and returns its status."""
    lines = []
    for it in (it for it in found.names if it.new not in modules_in(found)):
        scopes = modules_of(it, revision) if it.modules else []
        scopes += [path.removeprefix("crates/") for path in it.paths if path.startswith("crates/")]
        lines += [" ".join([it.old, it.new, *scopes])] if scopes or it.is_everywhere() else []
    path = f"{ROOT}/tools/renamed"
    with open(path, "w", encoding="utf-8") as file:
        file.write("".join(f"{line}\n" for line in lines))
    try:
        return subprocess.run([f"{ROOT}/tools/contracts", "--renamed", revision], check=False).returncode
    finally:
        os.remove(path)


def modules_of(name, revision):
    """Returns the files of specs/ that a name is meant in, as modules."""
    files = git("ls-tree", "-r", "--name-only", revision, "--", "crates").split("\n")
    word = re.compile(rf"(?<![\w'-]){re.escape(name.old)}(?![\w'-])")
    texts = {it: re.sub(r"--.*", "", git("show", f"{revision}:{it}")) for it in files if name.module.search(it)}
    named = [it for it in texts if word.search(texts[it])]
    return ["Rattle." + os.path.splitext(it.removeprefix("crates/"))[0].replace("/", ".") for it in named]


# ---- the stamps of edits


def stamps(found, revision, is_carried):
    """Counts the stamps that hold as they are, carries the others if it is to, and returns the status."""
    with tempfile.TemporaryDirectory() as folder:
        checkout(ROOT, revision, folder)
        before = sums_of(folder)
        with open(f"{folder}/STAMPS", "w", encoding="utf-8") as file:
            file.write(git("show", f"{revision}:{os.path.relpath(STAMPS, ROOT)}"))
        kept = kept_stamps(f"{folder}/STAMPS")
    now = sums_of(ROOT)
    held = [it for it in kept if it in before and before[it] == kept[it].sum]
    keys = {it: renamed_key(found, it, now) for it in held}
    others = [it for it in held if keys[it] != it or now.get(it) != kept[it].sum]
    print("".join(f"{' '.join(it)}\n" for it in others), end="")
    same = f"{len(held) - len(others)} hold as they are, {len(others)} have another name in their line or their sum"
    print(f"{len(held)} of {len(kept)} stamps held at {revision}: {same}")
    if is_carried:
        put_stamps({it: None for it in others if keys[it] != it})
        put_stamps({keys[it]: Stamp(now[keys[it]], kept[it].kit) for it in others if keys[it] in now})
    return 0


def renamed_key(found, key, now):
    """Returns the key that a stamp has after the renaming, or the same one."""
    file = moved(f"crates/{key.crate}/edits/{key.path}.edits", found)
    path = file.removeprefix(f"crates/{key.crate}/edits/").removesuffix(".edits")
    pairs = {*found.pairs(), *(it for old, new, *_ in found.texts for it in zip(signs(old), signs(new)))}
    names = [key.function, *(new for old, new in pairs if old == key.function)]
    return next((it for it in (Key(key.crate, path, name) for name in names) if it in now), key)


def sums_of(root):
    """Returns by key the sums of a repository's edits."""
    kit = subprocess.run(["rt", "version"], stdout=subprocess.PIPE, check=True, text=True).stdout
    crates, found = Crates(root), {}
    for name in crates.bottom_up():
        edits, faults = edits_of(crates.folder(name))
        if faults:
            raise ValueError(f"crates/{name}/edits: {faults[0]}")
        tried = [it for it in edits if not it.is_harmless]
        found |= {key: it.sum for key, it in stamps_of(crates, name, tried, kit).items()} if tried else {}
    return found
