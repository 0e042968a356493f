"""The pages that scripts write are what these scripts would write, and name their scripts."""

from __future__ import annotations

import subprocess

from judging import TOP, judge, read

PAGES = {
    "docs/CONTRACTS.md": "tools/contracts_page",
    "docs/DEFINITIONS.md": "tools/definitions_page",
    "docs/LABELS.md": "tools/labels_page",
    "docs/python.md": "tools/python_page",
}


def test():
    """Judges each page."""
    for page, script in PAGES.items():
        done = subprocess.run([f"{TOP}/{script}", "--check"], capture_output=True, text=True)
        judge(done.returncode == 0, (done.stdout + done.stderr).strip())
        judge(f"`{script}`" in read(page), f"{page} doesn't name {script}")
