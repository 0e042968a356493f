"""Runs a check, and reads from its output which functions it blames."""

import os
import re
import subprocess

ONLY = re.compile(r"only=\d+ proved=\d+")
FUNCTION = re.compile(r"fn (\S+): (.+)")
GOAL = re.compile(r"note: src/\S+ it is not proved that .*?\(`([^`]+)`\)")
LAW = re.compile(r"impl (\S+): not proved; antt refuses (.+?) in `")
# An error in a proof file about a name that the edit removed shows nothing about the contract. Nor do errors after it.
VANISHED = re.compile(r"has no field|is not in scope|has no `|was not admitted")
# A function that needed no written proof, and whose search for a proof now leaves a goal open.
SEARCHED = re.compile(r"no proof: expected answers in \S+; `search` did not prove `([^`]+)`")
# An error in the answer to a goal begins with the goal's name.
ANSWER = re.compile(r"`([^`]+)`: (.*)")


class Ran:
    """A check: its output, its verdict ('proved', 'refused', or '' without one), and its processor seconds."""

    def __init__(self, words, folder):
        """Runs the check in a folder."""
        how = {
            "stdin": subprocess.DEVNULL,
            "stdout": subprocess.PIPE,
            "stderr": subprocess.STDOUT,
            "text": True,
            "errors": "replace",
        }
        with subprocess.Popen(words, cwd=folder, **how) as running:
            self.lines = running.stdout.read().rstrip("\n").split("\n")
            _, status, used = os.wait4(running.pid, 0)
            running.returncode = os.waitstatus_to_exitcode(status)
        self.seconds = used.ru_utime + used.ru_stime
        # The last line of a check of some functions alone has their number, and how many are proved.
        is_refused = any(it.startswith("logic=not-proved") for it in self.lines) or bool(
            ONLY.fullmatch(self.lines[-1]) and running.returncode == 1
        )
        self.verdict = "refused" if is_refused else "" if running.returncode else "proved"

    def first_error(self):
        """Returns the first line with an error, or the last line."""
        return next((it for it in self.lines if "error" in it), self.lines[-1])


class Blame:
    """The checker's output on an unproved function, and whether it blames the function's own body."""

    def __init__(self, name, is_own, why):
        self.path, self.is_own, self.why = name.split("::")[1:], is_own, why  # the path is relative to the crate

    def is_of(self, functions):
        """Returns whether this blames a function of these names, or a closure in one.

        Its path goes on after a word `fn`.
        """
        names = self.path[self.path.index("fn") :] if "fn" in self.path else self.path[-1:]
        return not functions.isdisjoint(names)

    def __str__(self):
        return f"{'::'.join(self.path)}: {self.why}"


def blames(lines):
    """Returns a blame for each unproved function.

    A function is blamed itself if the lines above it or its own line name an open goal, or if its proof file has an
    error. A call of a refused function doesn't count, nor does a text that is unknown here.
    """
    lines = "\n".join(lines).replace("\n  has no ", " has no ").split("\n")  # a long error continues in the next line
    found, goals = [], []
    for line in lines:
        goals += GOAL.findall(line)
        function = FUNCTION.fullmatch(line)
        if function:
            found += blame_of(*function.groups(), goals, lines)
            goals = []
        impl = LAW.match(line)
        if impl:
            found.append(blame_of_members(impl[1], re.findall(r"`([^`]+)`", impl[2]), lines))
    return found


def blame_of_members(name, members, lines):
    """Returns the blame of an impl with refused members: laws, or methods whose clauses no longer imply the trait's.

    The impl is blamed itself unless the errors are about names that the edit removed.
    """
    errors = [it.partition(": error: ")[2] for it in lines if it.startswith("src/") and ": error: " in it]
    telling = [
        it for it in errors if not VANISHED.search(it) and it.startswith(tuple(f"`{member}`" for member in members))
    ]
    return Blame(
        name, bool(telling), "member " + ", ".join(it.removesuffix("-value").removesuffix("-tells") for it in members)
    )


def blame_of(name, why, goals, lines):
    """Returns the blame of an unproved function, or nothing for a proved one."""
    proof = "proofs/" + "/".join(name.split("::")[1:]) + "/"
    errors = [
        it.partition(": error: ")[2] for it in lines if it.startswith((proof, "./" + proof)) and ": error: " in it
    ]
    telling = [it for it in errors if not VANISHED.search(it)]
    if goals:
        return [Blame(name, True, "goal " + ", ".join(dict.fromkeys(goals)))]
    if telling:
        answers = [it for it in map(ANSWER.fullmatch, telling) if it]
        goals = ", ".join(dict.fromkeys(it[1] for it in answers))
        return [Blame(name, True, f"proof {goals}: {answers[0][2]}" if answers else "proof " + telling[0])]
    if errors:
        return [Blame(name, False, "only its proof file names something that the edit removed: " + errors[0])]
    if searched := SEARCHED.fullmatch(why):
        return [Blame(name, True, f"goal {searched[1]}")]
    return [] if why == "proved" else [Blame(name, False, why)]
