"""Views of a pattern, and their texts."""
from __future__ import annotations

from collections import Counter
from dataclasses import dataclass
from typing import Union

import macrocells
import rle
from patterns import PLANE
from rule_files import Rule
from worlds import World

MOST_WINDOW_CELLS = 65536


@dataclass(frozen=True)
class Counts:
    """How many cells each state has."""

    def text_of(self, world: World, _rule: Rule, _generation: int) -> bytes:
        count = Counter(world.values())
        lines = [b"%d %d\n" % (state, count[state]) for state in sorted(count)]
        return b"".join(lines) or b"empty\n"


@dataclass(frozen=True)
class Window:
    """The states of some columns and rows, from the left and top on."""

    left: int
    top: int
    width: int
    height: int

    def has_size(self) -> bool:
        return 0 < self.width * self.height <= MOST_WINDOW_CELLS

    def is_on_plane(self) -> bool:
        spans = ((self.left, self.width), (self.top, self.height))
        return all(PLANE.start <= first and first + count <= PLANE.stop for first, count in spans)

    def text_of(self, world: World, _rule: Rule, _generation: int) -> bytes:
        lines = [
            " ".join(str(world.get((self.left + column, self.top + row), 0)) for column in range(self.width)) + "\n"
            for row in range(self.height)
        ]
        return "".join(lines).encode()


@dataclass(frozen=True)
class Rle:
    """The pattern in run-length encoding."""

    def text_of(self, world: World, rule: Rule, generation: int) -> bytes:
        if len(world) > rle.MOST_WRITTEN:
            return b"too many cells\n"
        return rle.text_of(world, rule.name, generation, rule.states)


@dataclass(frozen=True)
class Macrocell:
    """The pattern as a macrocell."""

    def text_of(self, world: World, rule: Rule, generation: int) -> bytes:
        return macrocells.text_of(world, rule.name, generation)


View = Union[Counts, Window, Rle, Macrocell]
