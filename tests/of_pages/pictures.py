"""The pictures of docs/pictures are as their programs draw them."""

from __future__ import annotations

import os
import subprocess
import sys
import tempfile

from judging import TOP, judge, read


def test():
    """Draws each picture again, and compares it."""
    for name in sorted(it for it in os.listdir(f"{TOP}/docs/pictures") if it.endswith(".py")):
        picture = f"{name[:-3]}.svg"
        with tempfile.TemporaryDirectory() as room:
            with open(f"{room}/{name}", "w", encoding="utf-8") as copy:
                copy.write(read(f"docs/pictures/{name}"))
            subprocess.run([sys.executable, "-B", f"{room}/{name}"], check=True)
            with open(f"{room}/{picture}", encoding="utf-8") as drawn:
                same = drawn.read() == read(f"docs/pictures/{picture}")
        judge(same, f"docs/pictures/{picture} is not what {name} draws")
