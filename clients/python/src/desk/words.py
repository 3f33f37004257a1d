"""What a call is given, as the words of a command.

What no command can have is Malformed, and isn't sent. What the program itself refuses with a better reason,
such as a cell that is too far out, is left to it.
"""
from __future__ import annotations

import operator
from reprlib import repr as short
from typing import Any, Iterable, NamedTuple, Sequence, Tuple, Union

from .errors import Malformed

Cell = Tuple[int, int, int]  # x, y (downwards) and the state


class Window(NamedTuple):
    """The view of w by h cells, with the cell (x, y) at its left and top."""

    x: int
    y: int
    w: int
    h: int


View = Union[str, Window]  # "counts", "rle", "mc" or a window
TEXTS = ("counts", "rle", "mc")
KINDS = 'a view is "counts", "rle", "mc" or a Window of four integers, w and h not negative'


def number(value: Any, what: str) -> int:
    """An integer of any sort, as a Python one."""
    try:
        return operator.index(value)
    except TypeError:
        raise Malformed(f"{what} is {short(value)}, and has to be an integer") from None


def natural(value: Any, what: str) -> int:
    """An integer that isn't negative: a generation, an id, a state."""
    found = number(value, what)
    if found < 0:
        raise Malformed(f"{what} is {short(found)}, and can't be negative")
    return found


def checked_view(given: Any) -> View:
    """A view as its kind or its window."""
    if isinstance(given, str) and given in TEXTS:
        return given
    try:
        x, y, w, h = given if not isinstance(given, str) else ()
        return Window(number(x, "x"), number(y, "y"), natural(w, "w"), natural(h, "h"))
    except (TypeError, ValueError):
        raise Malformed(f"{short(given)} is no view: {KINDS}") from None


def view_words(given: View) -> str:
    """The words of a view."""
    return given if isinstance(given, str) else "window " + " ".join(map(str, given))


def view_of(words: Sequence[str]) -> View:
    """The view that words say, as `mark` takes them and `list` tells them."""
    return words[0] if words[0] in TEXTS else Window(*map(int, words[1:]))


def cell_words(cells: Iterable[Cell]) -> str:
    """The words of cells, of which a command names at least one."""
    try:
        found = [_cell_words(it) for it in cells]
    except TypeError:
        raise Malformed(f"cells are a list of them, and not {short(cells)}") from None
    if not found:
        raise Malformed("there are no cells, and a command names at least one")
    return " ".join(found)


def _cell_words(cell: Cell) -> str:
    try:
        x, y, state = cell
        return f"{number(x, 'x')} {number(y, 'y')} {natural(state, 'the state')}"
    except (TypeError, ValueError) as fault:
        why = f": {fault}" if isinstance(fault, Malformed) else ""
        raise Malformed(f"a cell is three integers, x, y and a state, and not {short(cell)}{why}") from None


def branch_words(on: int) -> str:
    """What stands before a command of a branch, which is nothing for branch 0."""
    found = natural(on, "the branch")
    return f"on {found} " if found else ""
