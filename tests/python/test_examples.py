"""Each script of examples/python prints the line of its page, and has at most 80 lines."""

from __future__ import annotations

import os
import re
import subprocess
import sys
import tempfile
import unittest
from pathlib import Path

from constriction import _library

TOP = Path(__file__).resolve().parents[2]
FOLDER = TOP / "examples/python"
SCRIPTS = (
    "adaptive_text", "ngram", "image", "mixture_image", "hyperprior", "lockstep", "batch_images", "bits_back", "records", "bit_stream", "sampled_latent",
)  # fmt: skip
ENVIRONMENT = {
    **os.environ,
    "PYTHONPATH": str(Path(_library.__file__).parents[1]),
    "CONSTRICTION_LIBRARY": str(_library.PATH),
}


# A stand-in for matplotlib. A picture is the list of calls that draw it.
STAND_IN = """
from unittest.mock import MagicMock


def subplots(**options):
    axes = MagicMock()
    axes.get_legend_handles_labels.side_effect = lambda: ([it for it in axes.mock_calls if "label" in it.kwargs], [])
    figure = MagicMock()
    figure.savefig.side_effect = lambda name: open(name, "w").write("\\n".join(it[0] for it in axes.mock_calls))
    return figure, axes
"""


class Examples(unittest.TestCase):
    """The scripts of examples/python."""

    def test_lines(self) -> None:
        """Each script prints the line of the page."""
        page = (FOLDER / "README.md").read_text()
        wanted = re.findall(r"```text\n(.*?)```", page, re.DOTALL)[-1].splitlines()
        self.assertEqual(len(wanted), len(SCRIPTS))
        for name, line in zip(SCRIPTS, wanted):
            with self.subTest(name):
                ran = subprocess.run(
                    [sys.executable, FOLDER / f"{name}.py"], env=ENVIRONMENT, capture_output=True, text=True
                )
                self.assertEqual((ran.returncode, f"{name}.py: {ran.stdout}"), (0, line + "\n"), ran.stderr)

    def test_pictures(self) -> None:
        """A script writes a picture if matplotlib is installed, and otherwise reports that it isn't."""
        with tempfile.TemporaryDirectory() as folder:
            path = Path(folder, "picture.svg")
            command = [sys.executable, FOLDER / "sampled_latent.py", "--picture", path]
            ran = subprocess.run(command, env=ENVIRONMENT, capture_output=True, text=True)
            self.assertEqual(ran.returncode, 0, ran.stderr)
            self.assertNotEqual(path.is_file(), "matplotlib is not there" in ran.stderr)

    def test_names(self) -> None:
        """Each picture has a title and names of its axes, and a legend if it has two lines."""
        with tempfile.TemporaryDirectory() as folder:
            package = Path(folder, "matplotlib")
            package.mkdir()
            (package / "__init__.py").write_text("def use(name):\n    pass\n")
            (package / "pyplot.py").write_text(STAND_IN)
            environment = {**ENVIRONMENT, "PYTHONPATH": f"{folder}{os.pathsep}{ENVIRONMENT['PYTHONPATH']}"}
            for name in SCRIPTS:
                with self.subTest(name):
                    path = Path(folder, name)
                    command = [sys.executable, FOLDER / f"{name}.py", "--picture", path]
                    subprocess.run(command, env=environment, capture_output=True, check=True)
                    calls = path.read_text().split("\n")
                    self.assertLessEqual({"set_title", "set_xlabel", "set_ylabel"}, set(calls))
                    self.assertEqual("legend" in calls, name in ("adaptive_text", "ngram", "bits_back"))

    def test_lengths(self) -> None:
        for path in FOLDER.glob("*.py"):
            self.assertLessEqual(len(path.read_text().splitlines()), 80, path)


if __name__ == "__main__":
    unittest.main()
