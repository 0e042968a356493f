"""Proves a program or a static library and the crates below it, in parallel where possible, and builds it.

The script keeps each library that an earlier run proved, even if that run was ended early, as long as the library and
the crates below it are unchanged. With --over-gate, it uses the libraries that `rt ci` has just built, and one job. It
reports progress on standard error: on a terminal, it redraws one line each second; elsewhere, it writes a line for each
crate and each half minute (or each PROGRESS_SECONDS seconds). With --answer, a trial run answers a command of the
program meanwhile; the launcher puts the command's input into a folder. With --target MACHINE, it builds the static
library for Linux on that machine. It proves only this library again, over what the proof for x86-64 has checked, if
there is one.

usage: first_call.py KIT REPOSITORY CRATE [--over-gate] [--target MACHINE]
       first_call.py KIT REPOSITORY CRATE --answer FOLDER COMMAND.."""

import json
import os
import shutil
import signal
import sys
import time
from concurrent.futures import FIRST_COMPLETED, ThreadPoolExecutor, wait

sys.dont_write_bytecode = True
from schedule import SPEEDS, Part, Schedule, share_done
from toolchain import toolchain_of
from unproved_answer import UnprovedAnswer

# The processor time of each proof from nothing with one job, as a multiple of the proof of constriction_words.
WEIGHTS = {
    "constriction_words": 1.0,
    "constriction_base": 3.6,
    "constriction_stream": 1.5,
    "constriction_models": 5.2,
    "constriction_stack": 3.8,
    "constriction_queue": 5.4,
    "constriction_chain": 4.9,
    "constriction_symbol": 5.9,
    "constriction_store": 2.6,
    "constriction_commands": 3.6,
    "constriction_cli": 0.8,
    "constriction_inputs": 6.2,
    "constriction_calls": 9.5,
    "constriction_interleaved": 2.0,
    "constriction_lanes": 2.6,
    "constriction_c": 9.5,
}
# That of a proof over what the proof for x86-64 has checked.
WEIGHT_AGAIN = 1.0


class Progress:
    """Writes lines on standard error. Each begins with the name of the called command."""

    def __init__(self, name):
        self.name, self.stream, self.began = name, sys.stderr, time.time()
        self.is_terminal = self.stream.isatty()
        self.pause = 1.0 if self.is_terminal else float(os.environ.get("PROGRESS_SECONDS", "30"))
        self.is_drawn = False

    def seconds(self):
        """Returns the seconds since the run began."""
        return time.time() - self.began

    def say(self, text):
        """Writes a line that isn't redrawn."""
        print(f"{self.wiped()}{self.name}: {text}", file=self.stream, flush=True)

    def wiped(self):
        """Returns the control characters that erase the drawn line, if there is one."""
        was_drawn, self.is_drawn = self.is_drawn, False
        return "\r\x1b[K" if was_drawn else ""

    def draw(self, text):
        """Redraws the line on a terminal, and writes a new one elsewhere."""
        if not self.is_terminal:
            return self.say(text)
        columns = shutil.get_terminal_size().columns - 1
        print(f"\r\x1b[K{self.name}: {text}"[: columns + 4], end="", file=self.stream, flush=True)
        self.is_drawn = True


class Record:
    """The record of a proved crate: a checksum of its files and of the files below, and the times of these builds."""

    def __init__(self, toolchain, crate):
        self.toolchain, self.crate, self.path = toolchain, crate, f"{crate.out()}/proved"
        self.stamp = toolchain.stamp(crate)

    def made(self):
        """Returns the time at which each library below, and the crate itself, was built."""
        return {it.name: os.stat(it.built()).st_mtime_ns for it in [*self.crate.below(), self.crate]}

    def kept(self):
        """Returns the written record, if it is still true."""
        try:
            with open(self.path, encoding="utf-8") as file:
                said = json.load(file)
            return said if said["stamp"] == self.stamp and said["made"] == self.made() else None
        except (OSError, ValueError, KeyError, TypeError):
            return None

    def write(self, unit):
        """Writes the record with the seconds of a unit of work, if no file has changed since the proof began."""
        if self.stamp == self.toolchain.stamp(self.crate):
            with open(self.path, "w", encoding="utf-8") as file:
                json.dump({"stamp": self.stamp, "made": self.made(), "unit": unit}, file)


class Run:
    """A run that proves some crates, except those named in `done`.

    It shows the unproved answer meanwhile, if one is given. With `processors`, it uses no more than so many.
    """

    def __init__(self, toolchain, crates, done, unit, progress, answer=None, processors=None):
        """Takes the crates to prove, and the names of the crates that are done."""
        self.toolchain, self.crates, self.done, self.progress = (
            toolchain,
            {it.name: it for it in crates},
            set(done),
            progress,
        )
        self.unit = unit  # the seconds of a proof of weight 1 with one job, or None until the first proof has ended
        self.answer = [answer.said] if answer else []
        self.ended = []  # the seconds and the weight of each proof that ended here
        self.running = {}  # by name: the number of jobs, and the time at which the proof began
        parts = {it.name: Part({below.name for below in it.below()}, weight(it), toolchain.memory(it)) for it in crates}
        self.schedule = Schedule(parts, processors or toolchain.processors(), toolchain.free())

    def all(self):
        """Proves all crates, and returns whether that succeeded. The first failure ends the run."""
        tasks, pool = {}, ThreadPoolExecutor(max(1, self.schedule.processors))
        while len(self.done) < len(self.crates):
            for name, jobs in self.schedule.starts(self.done, self.jobs()).items():
                self.running[name] = jobs, time.time()
                tasks[pool.submit(self.prove, self.crates[name], jobs)] = name
            self.progress.draw(self.line())
            for task in wait([*tasks, *self.answer], timeout=self.progress.pause, return_when=FIRST_COMPLETED).done:
                if task in self.answer:
                    self.answer.remove(task)
                    self.say_answer(task.result())
                elif not self.end(tasks.pop(task), task.result()):
                    return False
        return True

    def jobs(self):
        """Returns the number of jobs of each running proof, by name."""
        return {name: jobs for name, (jobs, _) in self.running.items()}

    def prove(self, crate, jobs):
        """Proves and builds a crate. Returns its record, or None if the proof failed."""
        os.makedirs(crate.out(), exist_ok=True)
        record = Record(self.toolchain, crate)
        return record if self.toolchain.prove(crate, jobs, log_of(crate)) else None

    def end(self, name, record):
        """Records the end of a proof, and returns whether it succeeded."""
        jobs, began = self.running.pop(name)
        if record is None:
            self.progress.say(f"{name} is not proved, as the toolchain says:")
            with open(log_of(self.crates[name]), encoding="utf-8") as log:
                shutil.copyfileobj(log, sys.stderr)
            return False
        self.ended.append(((time.time() - began) * SPEEDS[jobs], weight(self.crates[name])))
        self.unit = sum(seconds for seconds, _ in self.ended) / sum(work for _, work in self.ended)
        self.done.add(name)
        record.write(self.unit)
        return True

    def rest(self, name):
        """Returns an estimate of the work left on a crate."""
        whole = weight(self.crates[name])
        if name in self.done:
            return 0.0
        if name in self.running:
            jobs, began = self.running[name]
            return whole * (1 - share_done((time.time() - began) * SPEEDS[jobs] / (self.unit * whole)))
        return whole

    def left(self):
        """Returns an estimate of the seconds left, or None before the first proof has ended."""
        if not self.unit:
            return None
        return self.unit * self.schedule.left(self.done, self.jobs(), {name: self.rest(name) for name in self.crates})

    def line(self):
        """Returns a line with the progress of the run, in percent of its estimated time."""
        seconds, left, at_work = self.progress.seconds(), self.left(), ", ".join(self.running)
        if left is None:
            return f"at work on {at_work} for {seconds:.0f} s"
        return f"{min(99.9, 100 * seconds / (seconds + left)):.1f} % after {seconds:.0f} s, {about(left)} left; at work on {at_work}"

    def say_answer(self, answer):
        """Writes the answer of a trial run."""
        left = self.left()
        self.progress.say(
            f"unproved, of a trial run:{answer}; the proof goes on"
            + (f", {about(left)} left" if left is not None else "")
        )


def weight(crate):
    """Returns the estimated work of a crate's proof."""
    if crate.machine and os.path.isdir(crate.checked()):
        return WEIGHT_AGAIN
    return WEIGHTS.get(crate.name, 1.0)


def log_of(crate):
    """Returns the path of the prover's log for a crate."""
    return f"{crate.out()}/first_call.log"


def about(seconds):
    """Returns a duration in words."""
    minutes = round(seconds / 60)
    return f"about {minutes} minute{'s' * (minutes > 1)}" if minutes else "less than a minute"


def kept_of(toolchain, crates):
    """Returns the crates that an earlier run proved, and the seconds of a unit of work in that run."""
    kept, unit = set(), None
    for crate in crates:
        said = Record(toolchain, crate).kept() if kept.issuperset(it.name for it in crate.below()) else None
        if said:
            kept.add(crate.name)
            unit = said["unit"]
    return kept, unit


def begin(progress, toolchain, crate, count, kept):
    """Writes which crates the run proves, and how to get an unproved answer."""
    first = "; the first one shows how long this takes here" if count > 1 and not kept else ""
    of = f"the {count}" if not kept else f"{count} of the {count + kept}"
    if crate.is_program:
        trial = "./constriction --trial COMMAND < INPUT answers in a minute, unproved"
        progress.say(f"proving {of} crates of the program {toolchain.how} and building it, once{first}. {trial}")
    else:
        machine = f" for {crate.machine}" * bool(crate.machine)
        progress.say(f"proving {of} crates of {crate.name} {toolchain.how} and building it{machine}{first}")


def main(kit, top, name, *how):
    """Proves and builds the crate `name`, and returns the exit status."""
    signal.signal(signal.SIGINT, signal.SIG_DFL)  # an interrupt also ends the proofs
    toolchain = toolchain_of(kit, top)
    crates = toolchain.and_below(name)
    toolchain.lock(crates)
    crate, options = crates[-1], () if how[:1] == ("--answer",) else how
    crate.machine = options[options.index("--target") + 1] if "--target" in options else ""
    done, unit = ({it.name for it in crates[:-1]}, None) if "--over-gate" in options else kept_of(toolchain, crates)
    progress = Progress("constriction" if crate.is_program else "library")
    if len(done) == len(crates):
        progress.say(f"{name} is proved already")
        return 0
    begin(progress, toolchain, crate, len(crates) - len(done), len(done))
    answer = UnprovedAnswer(kit, crate, how[1], how[2:]) if how[:1] == ("--answer",) else None
    if answer:
        answer.start()
    # Four jobs take half the time of one job, and 1.5 times its processor time.
    processors = 1 if "--over-gate" in options else None
    is_proved = Run(toolchain, crates, done, unit, progress, answer, processors).all()
    if answer:
        answer.end()
    if not is_proved:
        sys.stderr.flush()
        os._exit(1)  # exits without waiting for other proofs
    progress.say(f"all is proved (after {progress.seconds():.0f} s)")
    return 0


if __name__ == "__main__":
    sys.exit(main(*sys.argv[1:]))
