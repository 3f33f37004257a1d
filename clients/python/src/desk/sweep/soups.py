"""Soups: rectangles of random cells that can be made again, in any language, from a number.

Of the soup with the seed N the place in column x and row y, counted from 0, takes the four bytes from 4 * (y * width +
x) on of what SHAKE-256 gives for the text `soup N` in ASCII. The first two as a number, the greater digits first, are
u, and the last two are v. The cell is live if u < density * 65536, and then its state is number v * k // 65536,
counted from 0, of the k states that are asked for. So a seed has its live cells at the same places under every rule.
"""
from __future__ import annotations

import hashlib
import re
import struct
from typing import List, NamedTuple, Sequence

from ..errors import Malformed
from ..formats.rle import sign


class Soup(NamedTuple):
    """Which soup: the seed, the size in cells, and which share of the cells is live."""

    seed: int
    width: int
    height: int
    density: float


def rows_of(soup: Soup, states: Sequence[int]) -> List[List[int]]:
    """The states of the cells, row by row."""
    if not states:
        raise Malformed("a soup needs a state for its live cells")
    count = soup.width * soup.height
    found = struct.unpack(f">{2 * count}H", hashlib.shake_256(b"soup %d" % soup.seed).digest(4 * count))
    most, kinds = soup.density * 65536, len(states)
    cells = [states[v * kinds >> 16] if u < most else 0 for u, v in zip(found[::2], found[1::2])]
    return [cells[at:at + soup.width] for at in range(0, count, soup.width)]


def rle(soup: Soup, states: Sequence[int], rule: str = "") -> str:
    """The soup as an RLE text, its upper left cell at (0, 0)."""
    signs = {it: sign(it) for it in (0, *states)} if tuple(states) != (1,) else {0: "b", 1: "o"}
    body = "$\n".join("".join(map(signs.__getitem__, row)) for row in rows_of(soup, states))
    return f"x = {soup.width}, y = {soup.height}{rule and ', rule = '}{rule}\n{body}!\n"


def states_of(rule: bytes) -> int:
    """How many states the text of a .rule file says there are, or 2 where it doesn't say."""
    found = re.search(rb"(?m)^\s*n(?:um)?_states\s*[:=]\s*(\d+)", rule)
    return int(found[1]) if found else 2
