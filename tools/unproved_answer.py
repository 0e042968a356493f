"""The answer of a trial run, shown on standard error while the proof runs."""

import os
import subprocess
import sys
import threading
from concurrent.futures import Future

sys.dont_write_bytecode = True
from toolchain import end_with_parent

# The beginning of the line in which a trial run reports that the program ended with status 0.
ENDED = "run=ended status=0 "
MOST_SHOWN = 2000  # characters


class UnprovedAnswer(threading.Thread):
    """A trial run, `rt try`, of a command of the program.

    The launcher writes the command's input to the file `input` of a folder when it has read all of it, unless the input
    is too long for a trial. `said` is a future of the text to show. A trial run that fails never sets it.
    """

    def __init__(self, kit, crate, room, command):
        super().__init__(daemon=True)
        self.words, self.folder, self.input = [f"{kit}/bin/rt", "try", "--", *command], crate.folder, f"{room}/input"
        self.said, self.running, self.is_over = Future(), None, threading.Event()

    def run(self):
        """Waits for the input, runs the command, and sets the future if the command succeeds."""
        while not os.path.exists(self.input):
            if self.is_over.wait(0.1):
                return
        with open(self.input, "rb") as file:
            how = {
                "stdin": file,
                "stdout": subprocess.PIPE,
                "stderr": subprocess.PIPE,
                "cwd": self.folder,
                "preexec_fn": end_with_parent,
            }
            self.running = subprocess.Popen(self.words, text=True, errors="replace", **how)
        answer, said = self.running.communicate()
        if answer.strip() and any(line.startswith(ENDED) for line in said.split("\n")):
            self.said.set_result(shown(answer.rstrip("\n")))

    def end(self):
        """Ends the trial run."""
        self.is_over.set()
        if self.running and self.running.poll() is None:
            self.running.terminate()


def shown(answer):
    """Returns an answer as it is shown: one line after the colon, or several indented lines below it."""
    rest = len(answer) - MOST_SHOWN
    answer = answer[:MOST_SHOWN] + f".. (and {rest} characters)" * (rest > 0)
    return " " + answer if "\n" not in answer else "\n    " + answer.replace("\n", "\n    ") + "\n   "
