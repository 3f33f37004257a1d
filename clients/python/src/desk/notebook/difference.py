"""Where two bookmarks differ, cell for cell, as a picture that a notebook draws by itself."""
from __future__ import annotations

from dataclasses import dataclass
from typing import List, Optional, Sequence, Tuple

from ..colors import Color
from ..errors import Malformed, Trouble
from ..formats.macrocell import Frame
from ..results import Shown
from ..words import Window
from .picture import MOST_COLORS, MOST_PIXELS, enlarged, pattern_in, place, write

EQUAL, ONLY_FIRST, ONLY_SECOND, OTHER = range(4)
BLUE, PINK, YELLOW = (74, 163, 255), (255, 111, 174), (255, 212, 71)
KINDS: List[Color] = [BLUE, PINK, YELLOW]  # the colors of ONLY_FIRST, ONLY_SECOND and OTHER
DARK, DIM = 28, 0.26  # the color that equal cells are drawn near to, and how much is left of their own


@dataclass(frozen=True, repr=False)
class Difference:
    """Which cells of two patterns differ. A notebook shows it where it is a cell's last value.

    Blue cells are live in the first alone, pink ones in the second alone, and yellow ones in both, in other states.
    Cells that are equal are dim.

    frame: which cells it has: w by h from the cell (x, y) on
    first, second: their states, row after row
    colors: the color of each state
    """

    frame: Frame
    first: Sequence[Sequence[int]]
    second: Sequence[Sequence[int]]
    colors: Sequence[Color]

    @property
    def only_first(self) -> int:
        """How many cells are live in the first alone."""
        return self._count(ONLY_FIRST)

    @property
    def only_second(self) -> int:
        """How many cells are live in the second alone."""
        return self._count(ONLY_SECOND)

    @property
    def other(self) -> int:
        """How many cells are live in both, in other states."""
        return self._count(OTHER)

    @property
    def cells(self) -> int:
        """How many cells differ."""
        return self.only_first + self.only_second + self.other

    def _count(self, kind: int) -> int:
        return sum(row.count(kind) for row in self.kinds())

    def kinds(self) -> List[List[int]]:
        """For each cell 0 where both are equal, 1 or 2 where it is live in that one alone, and else 3."""
        return [[kind_of(*cell) for cell in zip(*rows)] for rows in zip(self.first, self.second)]

    def png(self, zoom: Optional[int] = None) -> bytes:
        """The picture as a PNG, with zoom by zoom pixels for each cell. Without a zoom one is chosen."""
        dim = [_dimmed(it) for it in self.colors[:MOST_COLORS - len(KINDS) - 1]]  # one is left for the lines
        behind = len(dim) - 1
        kinds = zip(self.kinds(), self.second)
        rows = [[behind + kind if kind else min(state, behind) for kind, state in zip(*row)] for row in kinds]
        return enlarged(rows, [*dim, *KINDS], zoom)

    def save(self, path: str, zoom: Optional[int] = None) -> None:
        """Writes the PNG to a file. Trouble: that can't be done."""
        write(path, self.png(zoom))

    def _repr_png_(self) -> bytes:
        return self.png()

    def __repr__(self) -> str:
        return f"<Difference in {place(self.frame)}: {self}>"

    def __str__(self) -> str:
        kinds = [(self.only_first, "live only in the first (blue)"), (self.only_second, "only in the second (pink)"),
                 (self.other, "in both in other states (yellow)")]
        parts = ", ".join(f"{count} {where}" for count, where in kinds if count)
        return f"{self.cells} {'cell differs' if self.cells == 1 else 'cells differ'}{parts and ': '}{parts}"


def kind_of(first: int, second: int) -> int:
    """What a cell is that has these states."""
    if first == second:
        return EQUAL
    return ONLY_SECOND if first == 0 else ONLY_FIRST if second == 0 else OTHER


def difference_of(
    shown: Tuple[Shown, Shown], windows: Tuple[Optional[Window], Optional[Window]], colors: Sequence[Color]
) -> Difference:
    """The difference of what two bookmarks show: of the rows of two windows, or of two patterns' texts.

    Malformed: one shows counts, only one a window, or the windows aren't of one size.
    Trouble: a text says that there are too many cells, or the patterns reach too far for a picture cell by cell.
    """
    first, second = shown
    one, other = windows
    if isinstance(first, list) and isinstance(second, list) and one and other:
        if one[2:] != other[2:]:
            raise Malformed(f"windows of one size are compared, and not {one.w} by {one.h} with {other.w} by {other.h}")
        return Difference(Frame(*other, 1), first, second, colors)
    if one or other:
        raise Malformed("two windows are compared, or two patterns, and not one with the other")
    patterns = [pattern_in(it) for it in shown]
    frame = Frame(*_around([it for it in (each.box() for each in patterns) if it]), 1)
    if max(frame.w, frame.h) > MOST_PIXELS:
        raise Trouble(f"together the patterns take {frame.w} by {frame.h} cells, and a difference shows "
                      f"{MOST_PIXELS} by {MOST_PIXELS}; mark the same Window for both")
    return Difference(frame, patterns[0].drawn(frame), patterns[1].drawn(frame), colors)


def _around(boxes: List[Window]) -> Window:
    """The least window that has all of these, or of none a single cell."""
    if not boxes:
        return Window(0, 0, 1, 1)
    left, top = min(it.x for it in boxes), min(it.y for it in boxes)
    right, bottom = max(it.x + it.w for it in boxes), max(it.y + it.h for it in boxes)
    return Window(left, top, right - left, bottom - top)


def _dimmed(color: Color) -> Color:
    red, green, blue = (round(DARK + (it - DARK) * DIM) for it in color)
    return red, green, blue
