"""What bookmarks show, as texts for people and for files."""
from __future__ import annotations

import re
from typing import List, NamedTuple

from ..populations import aligned
from ..errors import Trouble
from ..results import Counts, Rows

HEADER = re.compile(r"#CXRLE Pos=(?P<x>-?\d+),(?P<y>-?\d+) .*\nx = (?P<width>\d+), y = (?P<height>\d+), .*\n")
RUN = re.compile(r"(\d*)([p-y]?[A-X]|[.bo$])")
TWO_LETTERS = re.compile("[p-y][A-X]")  # a state above 24
MOST_SIDE = 1024  # of a drawing in characters
NOTHING = "no live cells\n"


class Rle(NamedTuple):
    """An RLE text of the program: the bounding box and the runs of its cells."""

    x: int
    y: int
    width: int
    height: int
    runs: str


def counts_text(counts: Counts) -> str:
    """A line for each state that is there, and one for all of them."""
    if not counts:
        return NOTHING
    rows = [[str(state), str(cells)] for state, cells in sorted(counts.items())]
    return aligned([["state", "cells"], *rows, ["all", str(sum(counts.values()))]]) + "\n"


def csv_text(counts: Counts) -> str:
    """The numbers as a file for a spreadsheet."""
    return "".join(["state,cells\n", *(f"{state},{cells}\n" for state, cells in sorted(counts.items()))])


def window_text(rows: Rows) -> str:
    """A line for each row of states, in columns."""
    width = len(str(max(max(row) for row in rows)))
    return "".join(" ".join(str(state).rjust(width) for state in row) + "\n" for row in rows)


def rle_text(shown: str) -> str:
    """The text of an RLE file.

    Trouble: the pattern has more live cells than the program gives a text of.
    """
    rle_of(shown)
    return shown


def rle_of(shown: str) -> Rle:
    """What an RLE bookmark shows.

    Trouble: the pattern has more live cells than the program gives a text of.
    """
    header = HEADER.match(shown)
    if not header:
        raise Trouble("the pattern has more than 1,000,000 live cells, which is too much for RLE; take mc or png")
    x, y, width, height = map(int, header.groups())
    return Rle(x, y, width, height, shown[header.end():])


def drawing(shown: str, columns: int = MOST_SIDE) -> str:
    """The bounding box in characters: a dot for state 0, and the letters of RLE for the others.

    Trouble: it needs more columns than there are, or too many rows.
    """
    rle = rle_of(shown)
    if not rle.runs.strip("!\n"):
        return NOTHING
    letters = 2 if TWO_LETTERS.search(rle.runs) else 1
    if rle.width * letters > columns or rle.height > MOST_SIDE:
        raise Trouble(
            f"the pattern has {rle.width} by {rle.height} cells, and there is room for {columns // letters} by "
            f"{MOST_SIDE}; take png, or window X Y W H for a part of it")
    rows: List[List[str]] = [[]]
    for count, sign in RUN.findall(rle.runs):
        many = int(count or 1)
        if sign == "$":
            rows += [[] for _ in range(many)]
        else:
            rows[-1] += ["." if sign == "b" else sign] * many
    return "".join("".join(it.ljust(letters) for it in row + ["."] * (rle.width - len(row))) + "\n" for row in rows)
