"""Rows of states, as arrays of numpy or as lists, on their way into a document. None of it needs numpy."""
from __future__ import annotations

from reprlib import repr as short
from typing import TYPE_CHECKING, Any, Iterable, List, NamedTuple, Optional, Sequence, Union

from .errors import Malformed
from .formats.rle import rle_of
from .words import Cell, natural, number

if TYPE_CHECKING:
    from numpy.typing import NDArray

States = Union[Sequence[Sequence[int]], "NDArray[Any]"]  # rows of states, from the top down
Cells = Union[Iterable[Cell], States]
MOST_STATE = 255


def rows_of(states: Any) -> List[List[int]]:
    """Rows of states, as lists of Python's integers.

    Malformed: they aren't rows of one length, or a cell is no integer from 0 to 255.
    """
    listed = states.tolist() if hasattr(states, "tolist") else states
    try:
        rows = [[int(natural(it, "a state")) for it in row] for row in listed]
    except TypeError:
        raise Malformed(f"an array of states has rows of integers, unlike {short(states)}") from None
    if len(set(map(len, rows))) > 1:
        raise Malformed("the rows of an array of states are of one length")
    most = max((max(row, default=0) for row in rows), default=0)
    if most > MOST_STATE:
        raise Malformed(f"a state is {most}, and can't be above {MOST_STATE}")
    return rows


def pattern_of(states: States, x: int, y: int) -> bytes:
    """The RLE text of rows of states, whose left and top cell is (x, y). Malformed: as for `rows_of`."""
    return rle_of(rows_of(states), number(x, "x"), number(y, "y"))


class Placed(NamedTuple):
    """Cells that are to be set, and the branch."""

    cells: Iterable[Cell]
    on: int = 0


def placed(cells: Iterable[Any], x: Optional[int], y: Optional[int], on: Optional[int] = 0) -> Placed:
    """Cells as they are, or where x and y are given those of rows of states, whose left and top cell is (x, y).

    on: the branch. Where it is None a number that is given for x alone is the branch, since behind cells it is the
        next argument

    Malformed: x or y is given alone, or as for `rows_of`.
    """
    if on is None and y is None:
        return Placed(cells, 0 if x is None else x)
    if x is None and y is None:
        return Placed(cells, on or 0)
    if x is None or y is None:
        raise Malformed("x and y are given together, as the place of an array")
    left, top = number(x, "x"), number(y, "y")
    rows = enumerate(rows_of(cells), top)
    found = [(column, row, state) for row, states in rows for column, state in enumerate(states, left)]
    return Placed(found, on or 0)
