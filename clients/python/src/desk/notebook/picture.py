"""What a bookmark shows as a picture, which a notebook draws by itself. It needs no library."""
from __future__ import annotations

from dataclasses import dataclass
from typing import List, Optional, Sequence, Union

from ..colors import Color
from ..drawing import framed
from ..errors import Malformed, Trouble
from ..formats.macrocell import Frame, Quadtree
from ..formats.rle import RunLengths, box_of
from ..png import png
from ..results import Shown
from ..words import Window

MOST_PIXELS = 1024  # a side, of a pattern without a window
WIDE, MOST_ZOOM = 512, 16  # how far a picture is enlarged: to so many pixels a side, or so many a cell
LEAST_GRID = 5  # the least zoom at which lines part the cells
MOST_COLORS = 256  # of a PNG with a palette


@dataclass(frozen=True, repr=False)
class Picture:
    """A pattern in the colors of its rule. A notebook shows it where it is a cell's last value.

    frame: which cells it has: w by h pixels from the cell (x, y) on, each of step by step cells
    rows: the state of each pixel, row after row. A pixel of many cells has that of a live one of them, if there is one
    colors: the color of each state
    """

    frame: Frame
    rows: Sequence[Sequence[int]]
    colors: Sequence[Color]

    def png(self, zoom: Optional[int] = None) -> bytes:
        """The picture as a PNG, with zoom by zoom pixels for each of its own. Without a zoom one is chosen."""
        return enlarged(self.rows, self.colors, zoom)

    def save(self, path: str, zoom: Optional[int] = None) -> None:
        """Writes the PNG to a file. Trouble: that can't be done."""
        write(path, self.png(zoom))

    def _repr_png_(self) -> bytes:
        return self.png()

    def __repr__(self) -> str:
        return f"<Picture of {place(self.frame)}>"


def picture_of(shown: Shown, window: Optional[Window], colors: Sequence[Color]) -> Picture:
    """The picture of what a bookmark shows: the rows of its window, or a pattern's text.

    Malformed: it shows counts. Trouble: its text says that there are too many cells.
    """
    if window and isinstance(shown, list):
        return Picture(Frame(*window, 1), shown, colors)
    pattern = pattern_in(shown)
    frame = framed(pattern.box() or Window(0, 0, 1, 1), MOST_PIXELS, MOST_PIXELS)
    return Picture(frame, pattern.drawn(frame), colors)


def pattern_in(shown: Shown) -> Union[RunLengths, Quadtree]:
    """The pattern that a text of a bookmark says. Malformed, Trouble: as for `picture_of`."""
    if not isinstance(shown, str):
        raise Malformed('the bookmark shows counts, of which there is no picture; mark a Window, "rle" or "mc"')
    if shown.startswith("[M2]"):
        return Quadtree(shown)
    if not box_of(shown):
        raise Trouble(f'the text of the bookmark is `{shown.strip()}`; mark "mc", which has no such limit, or a Window')
    return RunLengths(shown)


def enlarged(rows: Sequence[Sequence[int]], colors: Sequence[Color], zoom: Optional[int] = None) -> bytes:
    """A PNG of rows of numbers of colors, with lines between the cells where these are large enough.

    Malformed: the zoom is below 1.
    """
    if zoom is None:
        zoom = max(1, min(MOST_ZOOM, WIDE // max(len(rows), len(rows[0]))))
    if zoom < 1:
        raise Malformed(f"the zoom is {zoom}, and has to be 1 or more")
    line = max(max(row) for row in rows) + 1  # the first color that none of them has
    if zoom < LEAST_GRID or line >= MOST_COLORS:
        return png(rows, colors, zoom)
    cells = [_parted(row, line, zoom) for row in rows]
    between = [line] * len(cells[0])
    lines = [between]
    for row in cells:
        lines += [*[row] * (zoom - 1), between]
    return png(lines, [*colors[:line], _line_on(colors[0])])


def _parted(row: Sequence[int], line: int, zoom: int) -> List[int]:
    """A row of pixels with a line before each cell and behind the last."""
    return [line, *(it for cell in row for it in [*[cell] * (zoom - 1), line])]


def _line_on(ground: Color) -> Color:
    """A color that is a little off that of the ground, towards gray."""
    red, green, blue = (it + (128 - it) // 4 for it in ground)
    return red, green, blue


def place(frame: Frame) -> str:
    """What a frame has, in words."""
    scale = f", {frame.step} by {frame.step} cells a pixel" if frame.step > 1 else ""
    what = "pixels" if frame.step > 1 else "cells"
    return f"{frame.w} by {frame.h} {what} from ({frame.x}, {frame.y}){scale}"


def write(path: str, content: bytes) -> None:
    """Writes a file. Trouble: that can't be done."""
    try:
        with open(path, "wb") as file:
            file.write(content)
    except OSError as fault:
        raise Trouble(f"{path}: {fault.strerror or fault}") from fault
