"""Pictures of the examples, where matplotlib is there; else none is drawn."""

from __future__ import annotations

import sys
from collections.abc import Callable
from typing import Any


def draw(plot: Callable[[Any], Any], arguments: list[str], title: str, x: str, y: str) -> None:
    """Lets ``plot`` draw on axes, and writes them to the file that follows ``--picture`` in the arguments.

    ``x`` and ``y`` are the names of the axes, with units. There is a legend if something has a label.
    """
    if "--picture" not in arguments:
        return
    name = arguments[arguments.index("--picture") + 1]
    try:
        import matplotlib
    except ImportError:
        print("matplotlib is not there, so there is no picture", file=sys.stderr)
        return
    matplotlib.use("Agg")
    from matplotlib import pyplot

    figure, axes = pyplot.subplots(figsize=(7, 4), layout="constrained")
    plot(axes)
    axes.set_title(title)
    axes.set_xlabel(x)
    axes.set_ylabel(y)
    if axes.get_legend_handles_labels()[0]:
        axes.legend()
    figure.savefig(name)
