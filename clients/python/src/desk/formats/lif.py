"""Patterns of the old formats Life 1.05 and Life 1.06 (.lif), as RLE texts.

Life 1.05 has blocks of rows: `#P x y` says where a block begins, `.` is an empty cell and `*` a live one. `#N` names
Life's own rule, and `#R 23/36` another one by the numbers of neighbours with which cells stay and are born. Life 1.06
has a line `x y` for each live cell. As in Golly, blank lines are passed over, and a `#P` without numbers moves nothing.
"""
from __future__ import annotations

import re
from itertools import groupby
from typing import Dict, Iterator, List, Set, Tuple

from ..errors import Trouble

BEGINNING = re.compile(rb"#Life 1\.0([56])")
PLACE = re.compile(rb"\s*(-?[0-9]+)\s+(-?[0-9]+)\s*")


def is_lif(text: bytes) -> bool:
    """Whether a text is in one of these formats."""
    return BEGINNING.match(text) is not None


def rule_named(text: bytes) -> str:
    """The name of the pattern's rule, or an empty one where it names none."""
    found = re.search(rb"(?m)^#(?:(N)|R[ \t]+([^\r\n]*?))[ \t]*\r?$", text)
    return "" if not found else "B3/S23" if found[1] else found[2].decode("latin-1")


def rle_of(text: bytes, path: str) -> bytes:
    """The pattern as RLE. What can't be read is a Trouble with the line."""
    beginning = BEGINNING.match(text)
    if beginning is None:
        raise Trouble(f"{path}: line 1 says neither #Life 1.05 nor #Life 1.06")
    lines = [(number, line) for number, line in enumerate(text.splitlines(), 1) if line.strip()]
    cells = set(_in_blocks(lines, path) if beginning[1] == b"5" else _one_a_line(lines, path))
    name = rule_named(text)
    header = f"x = 0, y = 0, rule = {name}" if name else "x = 0, y = 0"
    left, top = min((x for x, _ in cells), default=0), min((y for _, y in cells), default=0)
    return f"#CXRLE Pos={left},{top}\n{header}\n{_body(cells, left, top)}!\n".encode("latin-1")


def _in_blocks(lines: List[Tuple[int, bytes]], path: str) -> Iterator[Tuple[int, int]]:
    """The live cells of Life 1.05."""
    left = row = 0
    for number, line in lines:
        if line.startswith(b"#"):
            place = PLACE.fullmatch(line[2:])
            if line.startswith(b"#P") and place:
                left, row = int(place[1]), int(place[2])
            elif line.startswith(b"#P") and line[2:].strip():
                raise Trouble(f"{path}: line {number}: this is no place: {line.decode('latin-1')}")
            continue
        if not re.fullmatch(rb"[.*]+", line.rstrip()):
            raise Trouble(f"{path}: line {number}: this is no row of . and *: {line.decode('latin-1')}")
        yield from ((left + column, row) for column, sign in enumerate(line) if sign == ord("*"))
        row += 1


def _one_a_line(lines: List[Tuple[int, bytes]], path: str) -> Iterator[Tuple[int, int]]:
    """The live cells of Life 1.06."""
    for number, line in lines:
        place = PLACE.fullmatch(line)
        if place:
            yield int(place[1]), int(place[2])
        elif not line.startswith(b"#"):
            raise Trouble(f"{path}: line {number}: this is no cell `x y`: {line.decode('latin-1')}")


def _body(cells: Set[Tuple[int, int]], left: int, top: int) -> str:
    """The runs of these cells, whose box has its upper left corner there."""
    rows: Dict[int, List[int]] = {}
    for x, y in sorted(cells):
        rows.setdefault(y, []).append(x)
    body, last = [], top
    for y in sorted(rows):
        body.append(f"{y - last}$" if y > last else "")
        column = left
        # Cells that stand side by side have the same distance from their number in the row.
        for _, run in groupby(enumerate(rows[y]), key=lambda it: it[1] - it[0]):
            xs = [x for _, x in run]
            body.append((f"{xs[0] - column}b" if xs[0] > column else "") + f"{len(xs)}o")
            column = xs[-1] + 1
        last = y
    return "\n".join(filter(None, body))
