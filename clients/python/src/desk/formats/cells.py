"""The live cells of a macrocell text, one by one."""
from __future__ import annotations

from typing import Dict, Tuple

from .macrocell import Quadtree


def cells_of(text: str) -> Dict[Tuple[int, int], int]:
    """The states of the live cells of a macrocell text that the program wrote, by their places x and y."""
    return cells_in(Quadtree(text))


def cells_in(tree: Quadtree) -> Dict[Tuple[int, int], int]:
    """The same of a text that was read."""
    corner = -(1 << tree.level >> 1)
    found: Dict[Tuple[int, int], int] = {}
    left = [(tree.level, len(tree.rows) - 1, corner, corner)]
    while left:
        level, number, x, y = left.pop()
        if level:
            left += tree.quadrants(number, x, y)
        elif number:
            found[x, y] = number
    return found
