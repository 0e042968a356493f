"""Tries edits by checks of the edited functions alone, over the libraries in out/ from a run of the gate."""

import os
import shutil
import sys
import tempfile

from checker import Ran, blames
from edit import apply
from names import name_of
from repository import ROOT

sys.path.append(f"{ROOT}/tools")
from toolchain import words_of_check


def places():
    """Returns how many checks can run in parallel, by processors and memory. A check takes up to 3 GB."""
    memory = os.sysconf("SC_PAGE_SIZE") * os.sysconf("SC_PHYS_PAGES")
    return max(1, min(os.cpu_count() or 1, memory // 3_000_000_000))


def ask(edit):
    """Sets the last parts of the checker's names for the function of an edit's heading."""
    edit.asked = name_of(edit.folder, edit.path, edit.function)


def is_apart(one, other):
    """Returns whether one check can judge both edits: they change different functions, in separate places."""
    return not set(one.asked) & set(other.asked) and not one.meets(other)


def bring_up_to_date(kit, crates):
    """Runs `rt lib` for the libraries below some crates, if it built them.

    Libraries of the gate have no stamp of `rt lib`.
    """
    for crate in dict.fromkeys(it for crate in crates for it in crate.below()):
        if os.path.exists(f"{crate.folder}/out/rlib/stamp"):
            ran = Ran([f"{kit.kit}/bin/rt", "lib"], crate.folder)
            if ran.verdict != "proved":
                raise ValueError(f"rt lib fails in crates/{crate.name}: {ran.first_error()}")


class AloneTrial:
    """A trial of a crate's edits, after `ask`. A check proves only the edited functions and those that they call.

    The first check starts from nothing. A later one takes from it the proofs of functions that are unchanged.
    """

    def __init__(self, kit, crate, edits, logs):
        self.crate, self.folder, self.edits, self.logs = crate.name, crate.folder, edits, logs
        self.checks, self.seconds = 0, 0.0
        self.kept = tempfile.TemporaryDirectory(prefix="edits-kept-")
        self.words = [*words_of_check(kit.kit, crate), "--jobs", "1", "--incremental", self.kept.name]

    def run_all(self, batches):
        """Tries batches of edits one after the other, and adds their processor seconds."""
        self.seconds += sum(map(self.run, batches))

    def run(self, batch):
        """Tries edits in one check, and returns its processor seconds."""
        with tempfile.TemporaryDirectory(prefix="edits-alone-") as room:
            for part in ("src", "specs", "proofs"):
                if os.path.isdir(f"{self.folder}/{part}"):
                    shutil.copytree(f"{self.folder}/{part}", f"{room}/{part}")
            apply(batch, room)
            asked = sorted({name for it in batch for name in it.asked})
            ran = Ran([*self.words, *(word for it in asked for word in ("--only", it))], room)
        self.checks += 1
        self.note(batch, ran)
        found = blames(ran.lines) if ran.verdict == "refused" else []
        for edit in batch:
            judge(edit, found, ran)
        if not ran.verdict and len(batch) > 1:  # one of them may hide the others
            half = len(batch) // 2
            return ran.seconds + self.run(batch[:half]) + self.run(batch[half:])
        return ran.seconds

    def note(self, batch, ran):
        """Writes the output of a check to the folder for logs, if there is one."""
        if self.logs:
            os.makedirs(self.logs, exist_ok=True)
            with open(
                f"{self.logs}/{self.crate}-{batch[0].function}-{len(batch)}-{id(batch)}.log", "w", encoding="utf-8"
            ) as out:
                out.write(
                    "\n".join([f"seconds: {ran.seconds:.1f}", *("edit: " + it.name for it in batch), *ran.lines, ""])
                )


def judge(edit, found, ran):
    """Sets whether a check refused an edit's own function, and keeps its output on it."""
    ends = tuple(f"::{name}" for name in edit.asked)
    of_edit = sorted((it for it in found if f"::{'::'.join(it.path)}".endswith(ends)), key=lambda it: not it.is_own)
    edit.is_refused = bool(of_edit) and of_edit[0].is_own
    nothing = "no fault is found with the edited function" if ran.verdict else f"it was not tried: {ran.first_error()}"
    edit.said = str(of_edit[0]) if of_edit else nothing
