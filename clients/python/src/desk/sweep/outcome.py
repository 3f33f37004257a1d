"""What a case of a sweep wants to be shown, and what came of it."""
from __future__ import annotations

from typing import Any, NamedTuple

from ..words import View


class Show(NamedTuple):
    """What a case wants to be shown: a view at a generation of a branch."""

    generation: int
    view: View = "counts"
    on: int = 0


class Outcome(NamedTuple):
    """What came of a case.

    value: what `build` gave, with what each Show in it shows; None where the case failed
    cause: why it failed, in a word or two: "refused", "malformed", "out of time", "out of squares", "out of memory",
        "pending", "ended", "trouble" or "killed"; empty where it didn't
    why: the same as a sentence
    seconds: how long it took
    """

    case: Any
    value: Any
    cause: str = ""
    why: str = ""
    seconds: float = 0.0
