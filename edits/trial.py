"""Tries a crate's edits, several in one check."""

import os
import shutil
import tempfile

from checker import Ran, blames
from edit import apply, in_batches
from repository import copy_crate, copy_repository


def is_refused(edit, found):
    """Returns whether an edited function is blamed itself, and keeps the checker's output on it.

    An edit of a text outside of functions is tried alone, and any blamed function counts.
    """
    of_edit = [it for it in found if it.is_of(edit.functions)]
    told = sorted(found if edit.is_apart else of_edit, key=lambda it: (not it.is_own, it not in of_edit))
    edit.said = str(told[0]) if told else "the checker finds no fault with the edited function"
    return bool(told) and told[0].is_own


class Trial:
    """A trial of one crate's edits, in a repository in which the crate is proved."""

    def __init__(self, crate, edits, below, proved, size, logs):
        self.crate, self.edits, self.below, self.proved, self.size, self.logs = crate, edits, below, proved, size, logs
        self.checks, self.seconds = 0, 0.0

    def run(self):
        """Returns the edits that aren't refused. An unrefused edit is tried once more in a batch, and then alone."""
        passed = self.edits
        with tempfile.TemporaryDirectory(prefix="edits-") as copy:
            copy_repository(self.proved, copy, self.below)
            for size in (self.size, self.size, 1):
                batches = in_batches([it for it in passed if not it.is_settled], size)
                passed = [it for it in passed if it.is_settled]
                passed += [it for batch in batches for it in self.not_refused(batch, f"{copy}/crates/{self.crate}")]
        return passed

    def not_refused(self, batch, folder):
        """Tries edits in one check over the results for the unedited crate.

        Returns the edits that it doesn't refuse.
        """
        shutil.rmtree(folder, ignore_errors=True)
        copy_crate(f"{self.proved}/crates/{self.crate}", folder)
        apply(batch, folder)
        ran = Ran(["rt", "check", "--jobs", "1"], folder)
        self.note(batch, ran)
        for edit in batch:  # if all is proved, no edit hid another one
            edit.is_settled = len(batch) == 1 or ran.verdict == "proved"
        if ran.verdict:
            found = blames(ran.lines)
            return [it for it in batch if not is_refused(it, found)]
        if len(batch) > 1:  # one of them may hide the others
            half = len(batch) // 2
            return self.not_refused(batch[:half], folder) + self.not_refused(batch[half:], folder)
        batch[0].said = "it did not reach the prover: " + ran.first_error()
        return batch

    def note(self, batch, ran):
        """Counts a check, and writes its output to the folder for logs, if there is one."""
        self.checks += 1
        self.seconds += ran.seconds
        if self.logs:
            os.makedirs(self.logs, exist_ok=True)
            with open(f"{self.logs}/{self.crate}-{self.checks}.log", "w", encoding="utf-8") as out:
                out.write(
                    "\n".join([f"seconds: {ran.seconds:.1f}", *("edit: " + it.name for it in batch), *ran.lines, ""])
                )
