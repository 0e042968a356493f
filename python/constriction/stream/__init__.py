"""Stream coders: they spend fractions of a bit on a symbol.

- :mod:`~constriction.stream.stack`: ``AnsCoder``, last in first out.
- :mod:`~constriction.stream.queue`: ``RangeEncoder`` and ``RangeDecoder``, first in first out.
- :mod:`~constriction.stream.chain`: ``ChainCoder``, which decodes each symbol from 24 bits of its own.
- :mod:`~constriction.stream.model`: models, which assign a probability to each symbol.
"""

from . import chain, model, queue, stack

__all__ = ["chain", "model", "queue", "stack"]
