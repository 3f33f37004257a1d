"""What the words of the command line say, as values. A word that says none is refused with what it may be."""
from __future__ import annotations

import re
from argparse import ArgumentTypeError
from typing import List, NamedTuple, Tuple

from ..words import Cell

MOST_GENERATION = 1 << 60
GENERATION = re.compile(r"(?P<number>[0-9]+(?:_[0-9]+)*)(?:\^(?P<power>[0-9]{1,2})|[eE](?P<zeros>[0-9]{1,2}))?")
CELLS = re.compile(r"(?:\s*[+-]?[0-9]+\s+[+-]?[0-9]+\s+[0-9]+(?=\s|$))+\s*")


class Once(NamedTuple):
    """Cells that are set at a generation."""

    generation: int
    cells: Tuple[Cell, ...]


class Repeated(NamedTuple):
    """Cells that are set at the generation `first` and at each that is `distance` after one of those, up to `last`."""

    distance: int
    first: int
    last: int
    cells: Tuple[Cell, ...]


def generation(text: str) -> int:
    """A generation from 0 to 2^60, as `1048576`, `1_000_000`, `1e6` or `2^20` say it."""
    found = GENERATION.fullmatch(text)
    if found and len(found["number"]) < 80:
        value: int = int(found["number"]) ** int(found["power"] or 1) * 10 ** int(found["zeros"] or 0)
        if value <= MOST_GENERATION:
            return value
    raise ArgumentTypeError(f"{text!r}: take a generation from 0 to 2^60, as 1000, 1_000_000, 1e6 or 2^20")


def once(text: str) -> Once:
    """An intervention that acts once, as `20: 12 2 0 13 2 0`."""
    remedy = "take a generation, a colon, and x, y and state of each cell, as '20: 12 2 0 13 2 0'"
    (at,), cells = _intervention(text, 1, remedy)
    return Once(at, cells)


def repeated(text: str) -> Repeated:
    """An intervention that acts again and again, as `8 0 1000: 0 0 1`."""
    remedy = "take a distance, the first and the last generation, a colon and cells, as '8 0 1000: 0 0 1'"
    (distance, first, last), cells = _intervention(text, 3, remedy)
    return Repeated(distance, first, last, cells)


def _intervention(text: str, count: int, remedy: str) -> Tuple[List[int], Tuple[Cell, ...]]:
    """The numbers before the colon, of which there have to be so many, and the cells behind it."""
    before, _, behind = text.partition(":")
    numbers = before.split()
    if len(numbers) != count or not CELLS.fullmatch(behind):
        raise ArgumentTypeError(f"{text!r}: {remedy}")
    cells = [int(it) for it in behind.split()]
    return [generation(it) for it in numbers], tuple(zip(cells[::3], cells[1::3], cells[2::3]))
