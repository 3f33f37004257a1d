"""Curves of how many cells each state has, drawn by matplotlib."""
from __future__ import annotations

from importlib.util import find_spec
from io import BytesIO
from typing import Sequence, Tuple

from .populations import Row, states_of

LACK = "this Python has no matplotlib (Debian: python3-matplotlib)"


def can_plot() -> bool:
    """Whether there is a matplotlib."""
    return find_spec("matplotlib") is not None


def plotted(rows: Sequence[Row], title: str, size: Tuple[float, float], dots_per_inch: int) -> bytes:
    """A PNG with a curve for each state that is ever there. The size is width and height in inches.

    ImportError: there is no matplotlib.
    """
    from matplotlib.figure import Figure  # not pyplot, whose backend and figures are the caller's

    figure = Figure(figsize=size, layout="constrained")
    axes = figure.subplots()
    for state in states_of(rows):
        axes.plot([at for at, _ in rows], [counts.get(state, 0) for _, counts in rows], label=f"state {state}")
    axes.set(title=title, xlabel="generation", ylabel="cells")
    axes.grid(alpha=0.3)
    if axes.lines:
        axes.legend()
    file = BytesIO()
    figure.savefig(file, dpi=dots_per_inch, format="png")
    return file.getvalue()
