"""The answers of the Rust crate's coders: from its program, or from a file in which they were recorded.

A line of the file has the first digits of a request's checksum, and the answer. So the file doesn't depend on our
words: a request with other words, such as those to decode, has another checksum, and counts as a difference.
"""

from __future__ import annotations

import datetime
import hashlib
import os
import subprocess
import sys
from collections.abc import Callable

#: Returns the answers to requests.
Ask = Callable[[list[str]], list[str]]

FILE = f"{os.path.dirname(os.path.realpath(__file__))}/answers.txt"
HEAD = """\
# The answers of the Rust crate's coders in {cases} random cases of seed {seed}, made on {date} by
# `bench/words --record`. A line has the checksum of a request and its answer.
"""


def checksum(request: str) -> str:
    """Returns the first 8 digits of a request's checksum."""
    return hashlib.sha256(request.encode()).hexdigest()[:8]


class Record:
    """Writes requests and answers to the file."""

    def __init__(self, cases: int, seed: int) -> None:
        self.file = open(FILE, "w", encoding="ascii")
        self.file.write(HEAD.format(cases=cases, seed=seed, date=datetime.date.today()))

    def add(self, requests: list[str], answers: list[str]) -> None:
        """Adds a line for each request."""
        for request, answer in zip(requests, answers):
            self.file.write(f"{checksum(request)} {answer}\n")
        self.file.flush()


class Program:
    """The program `words` of bench/baseline."""

    def __init__(self, path: str, record: Record | None) -> None:
        self.path, self.record = path, record

    def ask(self, requests: list[str]) -> list[str]:
        """Returns the program's answers, and records them."""
        text = "".join(f"{it}\n" for it in requests)
        done = subprocess.run([self.path], input=text, capture_output=True, text=True)
        answers = done.stdout.splitlines()
        if done.returncode or len(answers) != len(requests):
            sys.exit(
                f"{self.path} ended with {done.returncode}: {len(answers)} of {len(requests)} answers; {done.stderr}"
            )
        if self.record:
            self.record.add(requests, answers)
        return answers


class Recorded:
    """The answers of the file, in the order of the requests."""

    def __init__(self) -> None:
        with open(FILE, encoding="ascii") as file:
            head, *lines = file.read().split("\n")
        words = head.split()
        self.cases, self.seed = int(words[words.index("cases") - 2]), int(words[words.index("seed") + 1].rstrip(","))
        self.lines = (it.partition(" ") for it in lines if it and not it.startswith("#"))

    def ask(self, requests: list[str]) -> list[str]:
        """Returns the answers that were recorded. The answer to a request that wasn't recorded says so."""
        return [self.answer(it) for it in requests]

    def answer(self, request: str) -> str:
        """Returns the next answer, if it is this request's."""
        found, _, answer = next(self.lines, ("", "", ""))
        return answer if found == checksum(request) else "nothing: the request isn't the recorded one"
