"""Messages of the package's exceptions say what was expected and then what the call got."""

from __future__ import annotations

import ast
import unittest
from collections.abc import Iterator
from pathlib import Path
from typing import Any

from constriction import _library, errors

PACKAGE = Path(_library.__file__).parent
#: The sentences of the Rust crate's package and of numpy, which programs may know.
OTHERS = (
    errors.IMPOSSIBLE_SYMBOL, errors.INVALID_FOR_MODEL, errors.ENDS_WITH_ZERO_WORD, errors.OUT_OF_COMPRESSED_DATA,
    errors.OUT_OF_REMAINDERS, errors.CODEWORD_ENDED, errors.INVALID_CODEWORD, "operands could not be broadcast together with shapes ",
)  # fmt: skip
#: Texts of exceptions that mean a fault of the package, or that no caller sees.
INSIDE = (
    "each is a symbol", "a codeword differs from the library's codeword", "codewords differ from the library's codewords", "a number is past its type",
    "no space", "out of memory",
)  # fmt: skip


def text_of(node: Any) -> str:
    """Returns the constant parts of a string in the source."""
    if isinstance(node, ast.Constant):
        return node.value if isinstance(node.value, str) else ""
    return "".join(text_of(it) for it in getattr(node, "values", ()))


def texts(tree: ast.Module) -> Iterator[str]:
    """Yields the texts of exceptions: those that are raised or returned, and constants with texts of several words."""
    for node in ast.walk(tree):
        if isinstance(node, ast.Call) and node.args:
            name = node.func.attr if isinstance(node.func, ast.Attribute) else getattr(node.func, "id", "")
            if name.endswith("Error"):
                yield text_of(node.args[0])
    for node in tree.body:
        target: Any = node.targets[0] if isinstance(node, ast.Assign) else None
        if isinstance(target, ast.Name) and target.id.strip("_").isupper():
            yield text_of(node.value)  # type: ignore[attr-defined]


class Messages(unittest.TestCase):
    """The texts of the package's source."""

    def test_form(self) -> None:
        """Each text has the word 'expected', or is another package's."""
        found = {text for path in PACKAGE.rglob("*.py") for text in texts(ast.parse(path.read_text())) if " " in text}
        others = {it for it in found if "expected" not in it.lower() and ", got " not in it} - {*OTHERS, *INSIDE}
        self.assertEqual(others, set())
        self.assertGreater(len(found), 60)
        for kind, text in errors._CLASSES.values():
            self.assertTrue(text in (*OTHERS, *INSIDE) or text.startswith("expected "), (kind, text))


if __name__ == "__main__":
    unittest.main()
