"""Patterns as macrocells, which are quadtrees of shared squares: how they are read and written."""
from __future__ import annotations

import re
from dataclasses import dataclass
from typing import Dict, List, Optional, Tuple, Union

from patterns import MOST_GENERATION, Pattern
from refusals import Fault, Refused
from texts import BLANKS, number_of, says_of, words_of
from worlds import BeyondTheModel, World

MOST_NODES = 16777216
MOST_LEVEL = 62
# A quadtree can say patterns of more cells than can be listed.
MOST_LISTED = 1 << 24
BITMAP_LEVEL = 3
BITMAP_SIDE = 1 << BITMAP_LEVEL


@dataclass(frozen=True)
class Quartered:
    """A square by its quadrants nw, ne, sw and se: states at level 1, and above the numbers of earlier nodes,
    counted from 1, or 0 for an empty one."""

    level: int
    quadrants: Tuple[int, ...]


@dataclass(frozen=True)
class Bitmap:
    """A square of 8 by 8 cells by its live ones, as column and row. They have the state 1."""

    live: Tuple[Tuple[int, int], ...]
    level: int = BITMAP_LEVEL


Node = Union[Quartered, Bitmap]


@dataclass
class MacrocellText:
    """What a text says: the name of a rule, a generation, and nodes, of which the last is the root."""

    rule_name: bytes
    generation: int
    nodes: List[Node]

    def population(self) -> int:
        """How many live cells the pattern has, which may be too many to list."""
        counts = [0]
        for node in self.nodes:
            if isinstance(node, Bitmap):
                counts.append(len(node.live))
            elif node.level == 1:
                counts.append(sum(state > 0 for state in node.quadrants))
            else:
                counts.append(sum(counts[number] for number in node.quadrants))
        return counts[-1]

    def world(self) -> World:
        """The pattern, with the cell (0, 0) as the upper left one of the root's south-east quadrant."""
        if self.population() > MOST_LISTED:
            raise BeyondTheModel
        world: World = {}
        if self.nodes:
            edge = -(1 << (self.nodes[-1].level - 1))
            self._draw(world, len(self.nodes), edge, edge)
        return world

    def _draw(self, world: World, number: int, left: int, top: int) -> None:
        node = self.nodes[number - 1]
        if isinstance(node, Bitmap):
            world.update({(left + column, top + row): 1 for column, row in node.live})
            return
        half = 1 << (node.level - 1)
        for at, quadrant in enumerate(node.quadrants):
            x, y = left + half * (at % 2), top + half * (at // 2)
            if quadrant and node.level == 1:
                world[x, y] = quadrant
            elif quadrant:
                self._draw(world, quadrant, x, y)


def pattern_of(text: bytes) -> Pattern:
    """The pattern that a text means."""
    said = said_by(text)
    return Pattern(said.world(), said.rule_name, said.generation)


def said_by(text: bytes) -> MacrocellText:
    """What the lines of a text say, of which the first begins with [M2]."""
    lines = says_of(text)
    first = next(lines, None)
    if not first or not first.text.startswith(b"[M2]"):
        raise Refused(Fault.NoM2)
    said = MacrocellText(b"", 0, [])
    for line in lines:
        if line.text.startswith(b"#"):
            _take_heading(said, line.text)
        elif line.text:
            node = _node_of(line.number, line.text)
            if len(said.nodes) >= MOST_NODES:
                raise Refused(Fault.NoRoom)
            _check_quadrants(line.number, node, said.nodes)
            said.nodes.append(node)
    return said


def _take_heading(said: MacrocellText, line: bytes) -> None:
    """Takes a line of the rule's name or the generation, and passes over a comment."""
    if line.startswith(b"#FRAME"):
        raise Refused(Fault.Timeline)
    name, generation = _value_behind(b"#R", line), _value_behind(b"#G", line)
    if name is not None:
        if b":" in name:
            raise Refused(Fault.BoundedGrid)
        said.rule_name = name
    elif generation is not None:
        number = number_of(generation)
        if number is not None:
            said.generation = min(number, MOST_GENERATION)


def _value_behind(word: bytes, line: bytes) -> Optional[bytes]:
    """What a line says behind a word, which stands alone or has a blank behind it."""
    rest = line[len(word) :]
    return rest.strip(BLANKS) if line.startswith(word) and (not rest or rest[0] in BLANKS) else None


def _node_of(number: int, line: bytes) -> Node:
    """The node of the line with this number, whose quadrants aren't looked at yet above level 1."""
    if line[:1] in (b".", b"*", b"$"):
        return _bitmap_of(number, line)
    numbers = [number_of(word) for word in words_of(line)]
    if not line[:1].isdigit() or len(numbers) != 5 or None in numbers:
        raise Refused(Fault.BadRow, number)
    level, *quadrants = numbers
    if level == 0 or (level == 1 and max(quadrants) > 255):
        raise Refused(Fault.BadRow, number)
    if level > MOST_LEVEL:
        raise Refused(Fault.TooDeep)
    return Quartered(level, tuple(quadrants))


def _check_quadrants(number: int, node: Node, earlier: List[Node]) -> None:
    """Each quadrant has to be empty or an earlier node of one level less."""
    if isinstance(node, Quartered) and node.level > 1:
        for quadrant in filter(None, node.quadrants):
            if quadrant > len(earlier) or earlier[quadrant - 1].level + 1 != node.level:
                raise Refused(Fault.BadChild, number)


def _bitmap_of(number: int, line: bytes) -> Bitmap:
    """The square of a line in which `$` ends each row, and dead cells at an end are left out."""
    rows = line.split(b"$")
    if any(not re.fullmatch(rb"[.*]{0,%d}" % BITMAP_SIDE, row) for row in rows) or any(rows[BITMAP_SIDE:]):
        raise Refused(Fault.BadRow, number)
    return Bitmap(tuple((x, y) for y, row in enumerate(rows) for x, sign in enumerate(row) if sign == ord("*")))


def text_of(world: World, name: bytes, generation: int) -> bytes:
    """The text of a pattern: each distinct square that isn't empty once, after its quadrants."""
    level = 1
    while not all(-(1 << (level - 1)) <= it < 1 << (level - 1) for place in world for it in place):
        level += 1
    rows: Dict[Tuple[int, ...], int] = {}
    edge = -(1 << (level - 1))
    _number_of_square(world, level, edge, edge, rows)
    lines = [" ".join(map(str, row)).encode() for row in rows] or [b"1 0 0 0 0"]
    return b"\n".join([b"[M2] (experiment desk)", b"#R " + name, b"#G %d" % generation, *lines]) + b"\n"


def _number_of_square(cells: World, level: int, left: int, top: int, rows: Dict[Tuple[int, ...], int]) -> int:
    """The number of the square of these cells, 0 where there are none. Rows get it and the squares within it,
    which are completed nw, ne, sw, se."""
    if not cells:
        return 0
    if level == 0:
        return cells[left, top]
    half = 1 << (level - 1)
    quadrants: List[World] = [{}, {}, {}, {}]
    for (x, y), state in cells.items():
        quadrants[(x >= left + half) + 2 * (y >= top + half)][x, y] = state
    numbers = [
        _number_of_square(quadrant, level - 1, left + half * (at % 2), top + half * (at // 2), rows)
        for at, quadrant in enumerate(quadrants)
    ]
    return rows.setdefault((level, *numbers), len(rows) + 1)
