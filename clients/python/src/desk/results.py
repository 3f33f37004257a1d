"""What a desk answers: what bookmarks show, and how a settling ended."""
from __future__ import annotations

from dataclasses import dataclass
from typing import TYPE_CHECKING, Any, Dict, Generic, List, NamedTuple, Optional, TypeVar, Union

from .errors import Trouble
from .words import View

if TYPE_CHECKING:
    from numpy.typing import NDArray

Counts = Dict[int, int]  # how many cells each state has that is there
Rows = List[List[int]]  # the states of a window's cells, row after row
Shown = Union[Counts, Rows, str]  # or the text of a pattern
Shows = TypeVar("Shows", bound=Shown, covariant=True)


class BookmarkId(int, Generic[Shows]):
    """The id of a bookmark, whose type says what `show` gives of it."""


class Settling(NamedTuple):
    """How a settling ended: how many bookmarks are pending, and the number of the cause.

    The cause is None where bookmarks are pending because the time that was given is over.
    """

    pending: int
    cause: Optional[int]


@dataclass(frozen=True)
class Polling:
    """What a poll told: how many bookmarks are pending still, and the number of the cause if it met one."""

    pending: int
    cause: Optional[int] = None


def shown_by(text: bytes, view: View) -> Shown:
    """What the text of a bookmark says."""
    if view == "counts":
        return {state: cells for state, cells in _numbers(text)}
    return text.decode("latin-1") if isinstance(view, str) else _numbers(text)


def array_of(text: bytes, view: View) -> NDArray[Any]:
    """The same as an array of numpy: a window has a row for each of its rows, and counts have rows (state, cells).

    Trouble: the view is of a text, or this Python has no numpy.
    """
    need_numpy()
    import numpy

    if isinstance(view, str) and view != "counts":
        raise Trouble("the bookmark shows a text, which is no array")
    rows = _numbers(text)
    if view != "counts":
        return numpy.array(rows, numpy.uint8)
    fits = all(cells < 2**63 for _, cells in rows)
    return numpy.array(rows, numpy.int64 if fits else object).reshape(-1, 2)


def need_numpy() -> None:
    """Raises Trouble where this Python has no numpy."""
    try:
        import numpy  # noqa: F401
    except ImportError:
        raise Trouble("this Python has no numpy, of which the arrays are") from None


def _numbers(text: bytes) -> Rows:
    return [[int(it) for it in line.split()] for line in text.splitlines() if line != b"empty"]
