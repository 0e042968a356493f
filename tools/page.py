"""Writes a page that a script generates, or compares it with what the script would write."""

import os
import sys

from wrapping import wrapped


def write_or_check(arguments, usage, path, page):
    """Writes the text that `page` returns, with wrapped prose, and returns the status.

    With --check it only compares.
    """
    if arguments not in ([], ["--check"]):
        sys.exit(usage.split("\n", 1)[0])
    text = wrapped(page())
    if not arguments:
        with open(path, "w", encoding="utf-8") as file:
            file.write(text)
        return 0
    current = ""
    if os.path.exists(path):
        with open(path, encoding="utf-8") as file:
            current = file.read()
    name, script = f"docs/{os.path.basename(path)}", f"tools/{os.path.basename(sys.argv[0])}"
    print(f"{name} is as written" if current == text else f"{name} isn't what {script} writes")
    return 0 if current == text else 1
