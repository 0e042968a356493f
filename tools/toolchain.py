"""The parts of the toolchain that the tools of this repository use. No other file uses the toolchain's own scripts.

`rt` has no command that proves the crates of one program from nothing, in parallel. `rt ci` does so for a whole
repository, with its tests and edits. `Toolchain` uses the parts of `bin/rt` that do so for a program. If a kit lacks
one of these parts, `Commands` proves the crates one after the other by documented commands, which takes longer.
"""

import ctypes
import importlib.machinery
import importlib.util
import os
import shutil
import signal
import subprocess
import sys

sys.dont_write_bytecode = True
from crates import crates_of

# The parts by their names in `rt`, and their purposes. A part `crate.NAME` belongs to a value of `rtlib.crates_below`.
PARTS = {
    "handles_of": "the handles that the repository allows",
    "need": "the most memory that a proof is likely to take",
    "processors": "the number of processors",
    "free": "the free memory",
    "Crate": "a crate whose proof may use only these handles",
    "Crate.allowed": "the handles of a crate",
    "Crate.cuts_libraries": "a switch: a proof loads only the statements of the libraries below",
    "Crate.words": "the arguments of the prover",
    "Crate.prove": "a proof from nothing, whose last line is a verdict's",
    "Crate.build_rlib": "a proof of a library from nothing, and its build",
    "Crate.link": "a program, linked from a compiled object",
    "rtlib": "the commands of a crate",
    "rtlib.Crate": "the crates that rtlib makes",
    "rtlib.crates_below": "the crates of a repository, lowest first",
    "rtlib.guarded": "a guard: processes that a run starts end with it",
    "rtlib.lock": "a lock: no two runs work in a crate",
    "crate.name": "the name of a crate",
    "crate.out": "the file of the prover's output",
}

MOST_MEMORY = 3_000_000_000


class Lacking(Exception):
    """The kit lacks a part."""


def stop(why):
    """Writes an error, and exits with status 2."""
    print(f"toolchain: {why}", file=sys.stderr)
    sys.exit(2)


def kit_of_path():
    """Returns the folder of the kit whose `rt` is on the path."""
    rt = shutil.which("rt") or stop("the command rt is not on the path")
    return os.path.dirname(os.path.dirname(os.path.realpath(rt)))


def version_of(kit):
    """Returns the line that `rt version` prints."""
    said = subprocess.run(
        [f"{kit}/bin/rt", "version"], stdin=subprocess.DEVNULL, capture_output=True, text=True, errors="replace"
    )
    return (
        said.stdout.strip()
        if said.returncode == 0 and said.stdout.strip()
        else stop(f"{kit}/bin/rt version fails: {said.stderr.strip()}")
    )


def loaded(kit):
    """Returns the module of a kit's command `rt`, if it has all parts."""
    loader = importlib.machinery.SourceFileLoader("rt", f"{kit}/bin/rt")
    rt = importlib.util.module_from_spec(importlib.util.spec_from_loader("rt", loader))
    try:
        loader.exec_module(rt)
    except Exception as why:  # the file may be a program in any language
        raise Lacking(f"{kit}/bin/rt can't be read as a Python module: {why}") from why
    refuse_lacking(kit, [part for part in PARTS if not part.startswith("crate.") and not has(rt, part)])
    return rt


def refuse_lacking(kit, parts):
    """Fails if there are lacking parts."""
    if parts:
        raise Lacking(f"the kit at {kit} lacks, in bin/rt, {', '.join(f'{part} ({PARTS[part]})' for part in parts)}")


def has(module, part):
    """Returns whether a module has a part, by its name with dots."""
    for name in part.split("."):
        if not hasattr(module, name):
            return False
        module = getattr(module, name)
    return True


def toolchain_of(kit, top):
    """Returns the toolchain for a repository: by the parts of the kit's `rt`, or by its commands if it lacks a part."""
    try:
        return Toolchain(kit, top)
    except Lacking as why:
        print(
            f"toolchain: {why}; so the commands rt lib and rt run prove the crates one after the other, which takes longer",
            file=sys.stderr,
        )
        return Commands(kit, top)


class Kit:
    """A kit and the repository whose crates it proves."""

    def __init__(self, kit, top):
        self.kit, self.top, self.crates, self.version = kit, top, crates_of(top), version_of(kit)

    def and_below(self, name):
        """Returns the crates below a crate, each after the crates that it uses, and then the crate."""
        if name not in self.crates:
            stop(f"crates.txt has no crate {name}")
        return [*self.crates[name].below(), self.crates[name]]

    def stamp(self, crate):
        """Returns the checksum of a crate."""
        return crate.stamp(self.version)


class Toolchain(Kit):
    """A kit that proves the crates of a repository from nothing, over the statements of the crates below."""

    how = "from nothing"

    def __init__(self, kit, top):
        """Loads the kit's `rt`, and fails if it lacks a part."""
        super().__init__(kit, top)
        self.rt = loaded(kit)
        os.chdir(top)
        self.rt.rtlib.guarded()
        self.rt.rtlib.Crate = self.rt.Crate
        self.rt.Crate.allowed = self.rt.handles_of(top)
        self.rt.Crate.cuts_libraries = True
        self.held, self.of_kit = [], {}
        for theirs in self.rt.rtlib.crates_below(top):
            refuse_lacking(
                kit,
                [
                    part
                    for part in PARTS
                    if part.startswith("crate.") and not hasattr(theirs, part.removeprefix("crate."))
                ],
            )
            self.of_kit[theirs.name] = theirs

    def lock(self, crates):
        """Waits until no other run works in these crates, and keeps others out until this process ends."""
        self.held += self.rt.rtlib.lock([self.of_kit[it.name] for it in crates])

    def processors(self):
        return self.rt.processors()

    def free(self):
        """Returns the memory for proofs, in bytes."""
        return 0.85 * self.rt.free()

    def memory(self, crate):
        """Returns the memory to reserve for the proof of a crate, in bytes.

        No crate of this repository takes more than 3 GB.
        """
        return min(self.rt.need(self.of_kit[crate.name]), MOST_MEMORY)

    def prove(self, crate, jobs, log):
        """Proves a crate from nothing and builds it, and returns whether both succeeded.

        The log gets the prover's output.
        """
        theirs, flags = self.of_kit[crate.name], ["--jobs", str(jobs)]
        with open(log, "w", encoding="utf-8", errors="replace") as theirs.out:
            try:
                return not (
                    self.build(crate, theirs, flags)
                    if crate.is_program or crate.is_static
                    else theirs.build_rlib(flags, anew=True)
                )
            except SystemExit:
                return False

    def build(self, crate, theirs, flags):
        """Proves a program or a static library and builds it, and returns the status."""
        made = f"out/{crate.name}.o" if crate.is_program else crate.built()
        words = ["build", *theirs.words(flags, keeps=False), *crate.target()]
        words += ["--toolchain", f"{self.kit}/toolchain", "--backend", "llvm", "-o", made]
        if crate.is_static:
            return self.build_static(crate, words, theirs.out)
        return theirs.prove(words) or theirs.link(made, f"out/{crate.name}")

    def build_static(self, crate, words, out):
        """Proves a static library and builds it, and returns the status. `out` gets the prover's output.

        A proof for x86-64 is from nothing, and keeps in a folder what it has checked. A proof for another machine takes
        from there what is the same for both machines.
        """
        checked = crate.checked()
        if not crate.machine:
            shutil.rmtree(checked, ignore_errors=True)
        command = [f"{self.kit}/bin/rattle", *words, "--incremental", checked]
        how = {"cwd": crate.folder, "stdin": subprocess.DEVNULL, "stdout": out, "stderr": out}
        return subprocess.run(command, preexec_fn=end_with_parent, **how).returncode


class Commands(Kit):
    """A kit that proves crates by documented commands: `rt lib`, `rt run` for a program, `rattle build` for another
    machine.

    `rt lib` and `rt run` reuse the results of `rt check`, and choose their jobs themselves.
    """

    how = "one after the other"

    def lock(self, crates):
        """Does nothing: each command waits until no other command works in its crate."""

    def processors(self):
        """Returns 1, so that no two commands run in parallel: each takes all free processors."""
        return 1

    def free(self):
        return MOST_MEMORY

    def memory(self, crate):
        return MOST_MEMORY

    def prove(self, crate, jobs, log):
        """Proves a crate and builds it, and returns whether both succeeded. The log gets the prover's output."""
        if crate.is_program and os.path.exists(crate.built()):
            os.remove(crate.built())
        command = [f"{self.kit}/bin/rt", "run" if crate.is_program else "lib"]
        if crate.machine:  # rt builds for x86-64 only
            rattle, _, *words = words_of_check(self.kit, crate)
            command = [
                rattle,
                "build",
                *words,
                *crate.target(),
                "--toolchain",
                f"{self.kit}/toolchain",
                "--backend",
                "llvm",
                "-o",
                crate.built(),
            ]
        with open(log, "w", encoding="utf-8", errors="replace") as out:
            how = {"cwd": crate.folder, "stdin": subprocess.DEVNULL, "stdout": out, "stderr": out}
            ran = subprocess.run(command, preexec_fn=end_with_parent, **how)
        # After `rt run` the status is the program's own.
        return os.access(crate.built(), os.X_OK) if crate.is_program else ran.returncode == 0


def end_with_parent():
    """Makes the kernel end this process as soon as its parent ends."""
    set_death_signal = 1
    ctypes.CDLL(None).prctl(set_death_signal, signal.SIGTERM)


def words_of_check(kit, crate):
    """Returns the words of `rattle check` for a crate, over the libraries built below it. Its --help explains them."""
    words = [
        f"{kit}/bin/rattle",
        "check",
        "--crate-name",
        crate.name,
        "src/main.rt" if crate.is_program else "src/lib.rt",
    ]
    for it in ("std", *crate.libraries):
        words += ["--extern", f"{it}={kit}/rlibs/{it}.rlib"]
    for it in crate.uses:
        words += ["--extern", f"{it.name}={it.rlib}"]
    for folder in (f"{kit}/rlibs", *(os.path.dirname(it.rlib) for it in crate.below())):
        words += ["-L", f"dependency={folder}"]
    words += [
        "--antt-project",
        f"{kit}/rattle/logic/antt-project.json",
        "--logic-built",
        f"{kit}/logic_built",
        "--links",
        f"{crate.name}=",
    ]
    return words + ["--crate-type", "staticlib"] * crate.is_static
