"""The examples in the package's docstrings are right, and each class that callers create has one."""

from __future__ import annotations

import doctest
import importlib
import pkgutil
import unittest

import constriction
from constriction import errors, store, symbol
from constriction.stream import chain, model, queue, stack

MODULES = [it.name for it in pkgutil.walk_packages(constriction.__path__, "constriction.") if "__main__" not in it.name]
#: Callers don't create objects of these classes.
ABSTRACT = {"Model", "Entry"}


class Docstrings(unittest.TestCase):
    """The docstrings of the package."""

    def test_examples(self) -> None:
        """All examples print what the docstrings say."""
        attempted = 0
        for name in MODULES:
            with self.subTest(name):
                found = doctest.testmod(importlib.import_module(name))
                self.assertEqual(found.failed, 0)
                attempted += found.attempted
        self.assertGreater(attempted, 60)

    def test_each_class_has_one(self) -> None:
        """Each class that callers create has an example, and each error has a docstring."""
        for module in (stack, queue, chain, model, symbol, store):
            for name in set(module.__all__) - ABSTRACT:
                it = getattr(module, name)
                if isinstance(it, type):
                    with self.subTest(name):
                        text = f"{it.__doc__}\n{module.__doc__ if module is store else ''}"
                        self.assertIn(">>> ", text)
        self.assertTrue(all(getattr(errors, name).__doc__ for name in errors.__all__))


if __name__ == "__main__":
    unittest.main()
