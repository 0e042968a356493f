"""Proved entropy coders. The package calls the C functions of this repository.

- :mod:`constriction.stream`: coders that spend fractions of a bit on a symbol (ANS, range coding, chain coding), and
  their models.
- :mod:`constriction.symbol`: codewords of whole bits (Huffman, Exp-Golomb).
- :mod:`constriction.store`: chunks of symbols in one list of words. Each chunk can be decoded alone.
- :mod:`constriction.errors`: the exceptions that calls raise if they refuse their arguments.

The names are those of the Python package of the Rust crate ``constriction``. The coders are proved, and so are the
models that compute in whole numbers. This package itself isn't proved: it passes lists to the C functions, and rounds
floats once. The models that compute weights in floats aren't proved either.
"""

from . import errors, stream, symbol
from . import store  # Needs the coders of `stream`, so the import of `stream` comes first.
from ._version import VERSION

__version__ = VERSION
__all__ = ["errors", "store", "stream", "symbol"]
