"""The states of a pattern's cells as rows of pixels, scaled down where there are too many."""
from __future__ import annotations

from typing import TYPE_CHECKING, List, Optional, Tuple

from .bounding_box import box_at
from .formats.macrocell import Frame, Quadtree
from .words import Window

if TYPE_CHECKING:
    from .client import Desk

MOST_CELLS = 65536  # of a window of the program


def framed(window: Window, most_w: int, most_h: int) -> Frame:
    """The frame of a window that has at most so many pixels a side."""
    step = 1
    while True:
        x, y = window.x // step * step, window.y // step * step
        w, h = -(-(window.x + window.w - x) // step), -(-(window.y + window.h - y) // step)
        if w <= most_w and h <= most_h:
            return Frame(x, y, w, h, step)
        step *= 2


def picture(desk: Desk, at: int, window: Optional[Window], most_w: int, most_h: int) -> Tuple[Frame, List[List[int]]]:
    """The frame and the rows of a window, or of the bounding box, scaled down to the most pixels a side."""
    window, tree = window or box_at(desk, at), None
    if not window:
        tree = Quadtree(desk.show(desk.mark(at, "mc")))
        window = tree.box() or Window(0, 0, 1, 1)
    window = window._replace(w=max(1, window.w), h=max(1, window.h))
    frame = framed(window, most_w, most_h)
    if frame.step == 1 and frame.w * frame.h <= MOST_CELLS:
        return frame, desk.show(desk.mark(at, window))
    return frame, (tree or Quadtree(desk.show(desk.mark(at, "mc")))).drawn(frame)
