"""Macrocell texts as the program writes them: quadtrees whose equal nodes are written once."""
from __future__ import annotations

from typing import List, NamedTuple, Optional, Tuple

from ..words import Window


class Frame(NamedTuple):
    """What is drawn: w by h pixels from the cell (x, y) on, each of step by step cells."""

    x: int
    y: int
    w: int
    h: int
    step: int


class Quadtree:
    """The distinct squares of a macrocell text of the program, by their numbers; 0 is the empty one.

    Squares of level 0 are cells, and their numbers are the states.
    """

    def __init__(self, text: str) -> None:
        self.rows: List[List[int]] = [[0] * 5]
        self.live, self.ink = [0], [0]
        for line in text.splitlines():
            if line[0].isdigit():
                row = [int(it) for it in line.split()]
                live = [(it > 0) if row[0] == 1 else self.live[it] for it in row[1:]]
                most = row[1 + live.index(max(live))]
                self.rows.append(row)
                self.live.append(sum(live))
                # The state that stands for a square is that of its quadrant with most live cells.
                self.ink.append(most if row[0] == 1 else self.ink[most])
        self.level = self.rows[-1][0]

    def quadrants(self, number: int, x: int, y: int) -> List[Tuple[int, int, int, int]]:
        """Level, number and place of each quadrant that isn't empty, of a square that lies at a place."""
        level, *kids = self.rows[number]
        half = 1 << (level - 1)
        places = [(x, y), (x + half, y), (x, y + half), (x + half, y + half)]
        return [(level - 1, kid, *at) for kid, at in zip(kids, places) if kid]

    def box(self) -> Optional[Window]:
        """The bounding box, or None where the pattern is empty."""
        if not self.live[-1]:
            return None
        boxes: List[Tuple[int, int, int, int]] = [(0, 0, 0, 0)]  # left, top, right and bottom of each square
        for number in range(1, len(self.rows)):
            parts = []
            for level, kid, x, y in self.quadrants(number, 0, 0):
                left, top, right, bottom = boxes[kid] if level else (0, 0, 1, 1)
                parts.append((x + left, y + top, x + right, y + bottom))
            boxes.append((min(it[0] for it in parts), min(it[1] for it in parts),
                          max(it[2] for it in parts), max(it[3] for it in parts)) if parts else (0, 0, 0, 0))
        left, top, right, bottom = boxes[-1]
        corner = -(1 << self.level >> 1)
        return Window(corner + left, corner + top, right - left, bottom - top)

    def drawn(self, frame: Frame) -> List[List[int]]:
        """The rows of states in a frame, whose step is a power of two and whose corner is a multiple of it."""
        rows = [[0] * frame.w for _ in range(frame.h)]
        corner = -(1 << self.level >> 1)
        left = self.quadrants(len(self.rows) - 1, corner, corner)
        while left:
            level, number, x, y = left.pop()
            column, row, pixels = (x - frame.x) // frame.step, (y - frame.y) // frame.step, (1 << level) // frame.step
            if pixels <= 1 and 0 <= column < frame.w and 0 <= row < frame.h:
                rows[row][column] = self.ink[number] if level else number
            elif pixels > 1 and -pixels < column < frame.w and -pixels < row < frame.h:
                left += self.quadrants(number, x, y)
        return rows
