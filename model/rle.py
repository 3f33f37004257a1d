"""Patterns in run-length encoding of many states: how they are read and written."""
from __future__ import annotations

import re
from dataclasses import dataclass
from typing import Iterator, List, NamedTuple, Tuple

from patterns import MOST_GENERATION, Bounds, Pattern, is_on_plane
from refusals import Fault, Refused
from texts import BEYOND, BLANKS, integer_of, lines_of, number_of
from worlds import World

MOST_LIVE = 16777216
MOST_WRITTEN = 1000000
WIDTH = 70
LETTERS = 24

# What is passed over within a body, and what its other bytes are.
BLANK = re.compile(rb"[ \t\n]|\r(?=\n)")
FIRST_PREFIX = ord("p")
COORDINATES = range(-(2**63), 2**63)


@dataclass
class Origin:
    """What comments say of a pattern: the place of its top left cell, and its generation."""

    x: int = 0
    y: int = 0
    generation: int = 0

    def take(self, comment: bytes) -> None:
        """Takes what a comment line says. Parts that are malformed or unknown say nothing."""
        if not comment.startswith(b"#CXRLE"):
            return
        joined = re.sub(rb"[ \t]*([=,])[ \t]*", rb"\1", comment[len(b"#CXRLE") :])
        for part in re.split(rb"[ \t]+", joined):
            name, _, value = part.partition(b"=")
            if name == b"Pos":
                place = [integer_of(it) for it in value.split(b",", 1)]
                if len(place) == 2 and all(it is not None and it in COORDINATES for it in place):
                    self.x, self.y = place
            elif name == b"Gen":
                number = number_of(value)
                if number is not None:
                    self.generation = min(number, MOST_GENERATION)


class Strip(NamedTuple):
    """Live cells of one state side by side, by the place of the first within the pattern."""

    column: int
    row: int
    count: int
    state: int


def pattern_of(text: bytes) -> Pattern:
    """The pattern that a text means."""
    origin, name, begin = _head_in(text)
    strips = [it for it in _strips_in(text, begin) if it.state]
    if sum(strip.count for strip in strips) > MOST_LIVE:
        raise Refused(Fault.TooManyLive)
    world: World = {}
    for column, row, count, state in strips:
        x, y = origin.x + column, origin.y + row
        if not (is_on_plane(x) and is_on_plane(x + count - 1) and is_on_plane(y)):
            raise Refused(Fault.CellOutOfRange)
        world.update({(x + k, y): state for k in range(count)})
    return Pattern(world, name, origin.generation)


def _head_in(text: bytes) -> Tuple[Origin, bytes, int]:
    """What stands before the body: its origin, the rule's name, and how many bytes this is."""
    origin, begin = Origin(), 0
    for line in lines_of(text):
        begin += len(line.raw)
        if line.says and not line.says.startswith(b"#"):
            return origin, _rule_name_in(line.says), begin
        origin.take(line.says)
    raise Refused(Fault.NoHeader)


def _rule_name_in(header: bytes) -> bytes:
    """The name in a header, which is `x = m, y = n` or has `, rule = name` behind it."""
    if not header.startswith(b"x"):
        raise Refused(Fault.NoHeader)
    size = rb"[ \t]*=[ \t]*[0-9]+[ \t]*"
    found = re.fullmatch(rb"x%b,[ \t]*y%b(?:,[ \t]*rule[ \t]*=[ \t]*(.*))?" % (size, size), header, re.DOTALL)
    if not found:
        raise Refused(Fault.BadHeader)
    name = (found[1] or b"").strip(BLANKS)
    if b":" in name:
        raise Refused(Fault.BoundedGrid)
    return name


def _strips_in(text: bytes, begin: int) -> Iterator[Strip]:
    """The runs of a body as strips, those of empty cells among them."""
    row = column = count = 0
    for offset, item in _items_in(text, begin):
        if item.isdigit():
            count = min(10 * count + int(item), BEYOND)
        elif item == b"!":
            return
        elif item == b"$":
            row, column, count = row + max(count, 1), 0, 0
        else:
            strip = Strip(column, row, max(count, 1), _state_of(offset, item))
            yield strip
            column, count = column + strip.count, 0


def _items_in(text: bytes, begin: int) -> Iterator[Tuple[int, bytes]]:
    """The items of a body with their offsets: a byte, or a prefix with the byte behind it, blanks passed over."""
    blanks = {found.start() for found in BLANK.finditer(text, begin)}
    solid = ((at, text[at : at + 1]) for at in range(begin, len(text)) if at not in blanks)
    for offset, byte in solid:
        yield offset, byte + next(solid, (0, b""))[1] if b"p" <= byte <= b"y" else byte


def _state_of(offset: int, item: bytes) -> int:
    """The state of a cell's item: a sign of two states, or a letter with or without a prefix."""
    if item in (b"b", b"."):
        return 0
    if item == b"o":
        return 1
    found = re.fullmatch(rb"([p-y]?)([A-X])", item)
    if not found:
        raise Refused(Fault.BadRun, offset)
    prefix, letter = found.groups()
    times = ord(prefix) - FIRST_PREFIX + 1 if prefix else 0
    state = LETTERS * times + ord(letter) - ord("A") + 1
    if state > 255:
        raise Refused(Fault.BadRun, offset)
    return state


def text_of(world: World, name: bytes, generation: int, states: int) -> bytes:
    """The text of a pattern under a rule of this name with so many states."""
    bounds = Bounds.of(world)
    head = f"#CXRLE Pos={bounds.left},{bounds.top} Gen={generation}\nx = {bounds.width}, y = {bounds.height}, rule = "
    return head.encode() + name + b"\n" + _packed(_tokens(world, bounds, states))


def _tokens(world: World, bounds: Bounds, states: int) -> Iterator[bytes]:
    """Runs as long as can be, ends of rows with how many there are, and the end."""
    last = bounds.top
    for row in sorted({y for _, y in world}):
        if row > last:
            yield _counted(row - last, b"$")
            last = row
        for count, state in _runs({x: world[x, y] for x, y in world if y == row}, bounds.left):
            yield _counted(count, _sign_of(state, states))
    yield b"!"


def _runs(row: dict, left: int) -> List[List[int]]:
    """How many cells of which state stand side by side in a row, from its left to its last live cell."""
    runs: List[List[int]] = []
    column = left
    for x in sorted(row):
        if x > column:
            runs.append([x - column, 0])
        if runs and runs[-1][1] == row[x]:
            runs[-1][0] += 1
        else:
            runs.append([1, row[x]])
        column = x + 1
    return runs


def _counted(count: int, sign: bytes) -> bytes:
    return sign if count == 1 else str(count).encode() + sign


def _sign_of(state: int, states: int) -> bytes:
    """How a state is written under a rule of so many."""
    if states == 2:
        return b"o" if state else b"b"
    if state == 0:
        return b"."
    times, letter = divmod(state - 1, LETTERS)
    prefix = bytes([FIRST_PREFIX + times - 1]) if times else b""
    return prefix + bytes([ord("A") + letter])


def _packed(tokens: Iterator[bytes]) -> bytes:
    """Tokens in lines. One goes on the present line if it fits whole, else on the next."""
    lines = [b""]
    for token in tokens:
        if len(lines[-1]) + len(token) > WIDTH:
            lines.append(b"")
        lines[-1] += token
    return b"".join(line + b"\n" for line in lines)
