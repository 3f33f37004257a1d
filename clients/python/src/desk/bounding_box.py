"""The least rectangle that holds all live cells."""
from __future__ import annotations

from typing import TYPE_CHECKING, Optional

from .formats.macrocell import Quadtree
from .formats.rle import box_of
from .words import Window

if TYPE_CHECKING:
    from .client import Desk


def box_at(desk: Desk, generation: int) -> Optional[Window]:
    """The bounding box, as the RLE view's first two lines say it; None where it says too many cells."""
    return box_of(desk.show(desk.mark(generation, "rle")))


def bounding_box(desk: Desk, generation: int) -> Optional[Window]:
    """The least rectangle that holds all live cells, or None where there are none."""
    found = box_at(desk, generation)
    if found:
        return found if found.w and found.h else None
    return Quadtree(desk.show(desk.mark(generation, "mc"))).box()
