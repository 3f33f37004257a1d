"""Patterns as RLE texts: made of rows of states, and read where the program wrote them."""
from __future__ import annotations

import re
from itertools import groupby
from typing import Iterator, List, NamedTuple, Optional, Sequence

from ..words import Window
from .macrocell import Frame

HEAD = re.compile(r"#CXRLE Pos=(-?\d+),(-?\d+) .*\nx = (\d+), y = (\d+).*\n")
ITEM = re.compile(r"(\d*)(?:([p-y]?)([A-X])|([bo.])|([$!]))")
LETTERS = 24  # the states from 1 on that a letter alone says


class Run(NamedTuple):
    """Live cells side by side in one state, from the cell (x, y) to the right."""

    x: int
    y: int
    length: int
    state: int


class RunLengths:
    """An RLE text that the program wrote of a pattern, which isn't the one that says too many cells."""

    def __init__(self, text: str) -> None:
        self._text = text

    def box(self) -> Optional[Window]:
        """The bounding box, or None where the pattern is empty."""
        found = box_of(self._text)
        return found if found and found.w and found.h else None

    def runs(self) -> Iterator[Run]:
        """All live cells, from the top on and each row from the left."""
        head = HEAD.match(self._text)
        left, y = (int(head[1]), int(head[2])) if head else (0, 0)
        x = left
        for item in ITEM.finditer(self._text, head.end() if head else 0):
            count, (_, more, letter, sign, end) = int(item[1] or 1), item.groups()
            if end == "!":
                return
            if end:
                x, y = left, y + count
                continue
            state = _state_of(more, letter) if letter else int(sign == "o")
            if state:
                yield Run(x, y, count, state)
            x += count

    def drawn(self, frame: Frame) -> List[List[int]]:
        """The rows of states in a frame. A pixel has the state of a live cell among its cells, if there is one."""
        rows = [[0] * frame.w for _ in range(frame.h)]
        for run in self.runs():
            row = (run.y - frame.y) // frame.step
            first, last = ((it - frame.x) // frame.step for it in (run.x, run.x + run.length - 1))
            if 0 <= row < frame.h:
                for column in range(max(0, first), min(frame.w, last + 1)):
                    rows[row][column] = run.state
        return rows


def box_of(text: str) -> Optional[Window]:
    """The bounding box that the head of an RLE text of the program says, or None where it says too many cells."""
    found = HEAD.match(text)
    return Window(*map(int, found.groups())) if found else None


def rle_of(rows: Sequence[Sequence[int]], x: int, y: int) -> bytes:
    """The RLE text of rows of states, all of one length, with the cell (x, y) at their left and top."""
    head = f"#CXRLE Pos={x},{y}\nx = {len(rows[0]) if rows else 0}, y = {len(rows)}\n"
    lines = ("".join(_said(state, len(list(same))) for state, same in groupby(row)) for row in rows)
    return (head + "$\n".join(lines) + "!\n").encode()


def sign(state: int) -> str:
    """A state's letters: a point for 0, A to X for 1 to 24, pA for 25 and so on."""
    if state == 0:
        return "."
    above, letter = divmod(state - 1, LETTERS)
    return (chr(ord("p") + above - 1) if above else "") + chr(ord("A") + letter)


def _said(state: int, count: int) -> str:
    return f"{count if count > 1 else ''}{sign(state)}"


def _state_of(more: str, letter: str) -> int:
    return (LETTERS * (ord(more) - ord("p") + 1) if more else 0) + ord(letter) - ord("A") + 1
