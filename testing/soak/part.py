"""What a part of the soak is."""
from __future__ import annotations

from typing import Callable, ContextManager, NamedTuple

from .found import Found

# Runs a seed for about so many seconds, where it can take longer, and says what came of it.
Run = Callable[[int, float], Found]


class Part(NamedTuple):
    """A part of the soak.

    open: makes ready for runs of a program; Lacking where something isn't installed
    what: what it does, in words
    a_run: what is counted, and what of it took the time that is told as the slowest
    """

    open: Callable[[str], ContextManager[Run]]
    what: str
    a_run: str
    timed: str
