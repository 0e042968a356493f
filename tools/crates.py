"""The crates of a repository's crates.txt, and checksums over the files of each."""

import hashlib
import os

PARTS = ("src", "specs", "proofs")


class Crate:
    """A crate: the crates and libraries that it uses, its kinds, and the paths of its files."""

    def __init__(self, top, name, kinds, uses, libraries):
        """Takes the line of a crate in crates.txt."""
        self.top, self.name, self.uses, self.libraries = (
            top,
            name,
            uses,
            libraries,
        )  # the libraries belong to the toolchain
        self.folder, self.kinds = f"{top}/crates/{name}", kinds
        self.is_static = "staticlib" in kinds
        self.is_program = os.path.isfile(f"{self.folder}/src/main.rt")
        self.rlib = f"{self.folder}/out/rlib/{name}.rlib"
        self.machine = ""  # the target machine of a static library, or "" for x86-64

    def below(self):
        """Returns the crates below this one, each after the crates that it uses."""
        return list(dict.fromkeys(it for used in self.uses for it in [*used.below(), used]))

    def out(self):
        """Returns the folder of the crate's build."""
        return f"{self.folder}/out/{self.machine}" if self.machine else f"{self.folder}/out"

    def checked(self):
        """Returns the folder where a static library's proof keeps what it has checked, for a proof for another machine."""
        return f"{self.folder}/out/checked"

    def target(self):
        """Returns the prover's arguments for the machine."""
        return ["--target", f"{self.machine}-unknown-linux-gnu"] if self.machine else []

    def built(self):
        """Returns the path of the program, the static library or the library."""
        if self.is_program:
            return f"{self.out()}/{self.name}"
        return f"{self.out()}/lib{self.name}.a" if self.is_static else self.rlib

    def files(self):
        """Returns the paths of the crate's files."""
        walked = [it for part in PARTS for it in os.walk(f"{self.folder}/{part}")]
        return sorted(f"{at}/{name}" for at, _, names in walked for name in names)

    def stamp(self, version):
        """Returns a checksum of everything that a proof of the crate depends on.

        That is the toolchain's version, HANDLES, the lines of crates.txt for the crate and the crates below, and their
        files.
        """
        handles = f"{self.top}/HANDLES"
        found = [version, content(handles) if os.path.isfile(handles) else b""]
        for it in [*self.below(), self]:
            found += [it.name, it.kinds, [used.name for used in it.uses], it.libraries]
            found += [(path.removeprefix(it.folder), content(path)) for path in it.files()]
        return hashlib.sha256(repr(found).encode()).hexdigest()


def content(path):
    """Returns the bytes of a file."""
    with open(path, "rb") as file:
        return file.read()


def listed(top):
    """Returns the kinds of each crate and the names that it uses, by its name in crates.txt."""
    found = {}
    for line in content(f"{top}/crates.txt").decode().split("\n"):
        head, colon, used = line.partition("#")[0].partition(":")
        if head.strip():
            name, *kinds = head.split()
            found[name] = kinds, used.split()
    return found


def crates_of(top):
    """Returns the crates of a repository by name, each after the crates that it uses."""
    lines, found = listed(top), {}

    def add(name, above=()):
        """Adds a crate after the crates that it uses. `above` has the names that lead to it."""
        if name in above:
            raise ValueError(f"crates.txt: {name} uses itself")
        kinds, used = lines[name]
        for it in used:
            if it in lines and it not in found:
                add(it, (*above, name))
        uses, libraries = [found[it] for it in used if it in lines], [it for it in used if it not in lines]
        found[name] = Crate(top, name, kinds, uses, libraries)

    for name in lines:
        if name not in found:
            add(name)
    return found
