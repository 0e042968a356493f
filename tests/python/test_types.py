"""The package's types, by mypy if it is installed."""

from __future__ import annotations

import os
import re
import shutil
import subprocess
import tempfile
import unittest
from pathlib import Path

from constriction import _library

PACKAGE = Path(_library.__file__).parent
MISUSES = Path(__file__).resolve().parent / "typed" / "misuses.py"


@unittest.skipUnless(shutil.which("mypy"), "mypy is not there")
class Types(unittest.TestCase):
    """The types of the package."""

    def test_package_and_misuses(self) -> None:
        """mypy accepts the package, and refuses exactly the marked lines of misuses.py."""
        environment = {**os.environ, "MYPYPATH": str(PACKAGE.parent)}
        with tempfile.TemporaryDirectory() as folder:
            command = ["mypy", "--strict", "--no-error-summary", "--cache-dir", folder, PACKAGE, MISUSES]
            ran = subprocess.run(command, env=environment, capture_output=True, text=True)
        found = {
            (Path(path).name, int(line))
            for path, line in re.findall(r"^(.*?):(\d+): error: ", ran.stdout, re.MULTILINE)
        }
        lines = MISUSES.read_text().splitlines()
        wanted = {(MISUSES.name, i) for i, line in enumerate(lines, 1) if line.endswith("# refused")}
        self.assertGreaterEqual(len(wanted), 12)
        self.assertEqual(found, wanted, ran.stdout + ran.stderr)


if __name__ == "__main__":
    unittest.main()
