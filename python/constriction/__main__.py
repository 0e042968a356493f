"""``python -m constriction`` prints the version and the path of the library.

``python -m constriction --version`` prints the version alone.
"""

from __future__ import annotations

import sys

from ._version import VERSION


def main(arguments: list[str]) -> int:
    """Prints what ``arguments`` ask for, and returns the exit status."""
    if arguments not in ([], ["--version"]):
        print("usage: python -m constriction [--version]", file=sys.stderr)
        return 2
    print("constriction", VERSION)
    if not arguments:
        from ._library import PATH

        print(PATH)
    return 0


if __name__ == "__main__":
    sys.exit(main(sys.argv[1:]))
