"""What pattern files say, and where patterns may lie."""
from __future__ import annotations

from typing import NamedTuple

from worlds import World

# A generation that a file names is read as this one where it is greater.
MOST_GENERATION = 2**64 - 1

# Each coordinate of the plane's cells is one of these.
PLANE = range(-(2**61), 2**61)


class Pattern(NamedTuple):
    """A pattern with the name of its rule and the generation that its file names."""

    world: World
    rule_name: bytes
    generation: int


class Bounds(NamedTuple):
    """The box of a pattern's live cells: four zeros where there are none."""

    left: int
    top: int
    width: int
    height: int

    @staticmethod
    def of(world: World) -> Bounds:
        if not world:
            return Bounds(0, 0, 0, 0)
        columns, rows = [x for x, _ in world], [y for _, y in world]
        left, top = min(columns), min(rows)
        return Bounds(left, top, max(columns) - left + 1, max(rows) - top + 1)


def is_on_plane(coordinate: int) -> bool:
    return coordinate in PLANE
