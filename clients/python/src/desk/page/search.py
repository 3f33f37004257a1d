"""Running until something is so: generations are looked at by bookmarks at distances that double, and are then halved.

Between two generations that are looked at nothing is known. So a generation that is found is one at which it is so and
at the one before it isn't, and need not be the first one. It is for what stays so once it is, as an empty plane.
"""
from __future__ import annotations

import math
from typing import Awaitable, Callable, Dict, List, NamedTuple, Optional, Tuple

from ..errors import Malformed
from ..formats.macrocell import Quadtree
from ..words import View, Window

FARTHEST = 1 << 60
# Patterns of more live cells are compared where they lie, and not where they have moved.
MOST_CELLS = 100_000
# A pattern whose period divides one of these distances comes again after it: they have all factors up to these.
FACTORS = 1, 2, 3, 4, 6, 8, 10, 12, 16, 19, 23, 27, 31, 37, 41
Look = Callable[[int, View], Awaitable[str]]
Told = Callable[[int], None]


class Found(NamedTuple):
    """A generation at which it is so; and where the pattern comes again, how often, and how far it has moved then."""

    generation: int
    period: int = 0
    shift: Tuple[int, int] = (0, 0)


class Goal(NamedTuple):
    """What is run until: a view, and whether a text of it says that it is so."""

    view: View
    is_so: Callable[[str], bool]


def population(counts: str) -> int:
    """How many live cells a text of counts has, which is `empty` where there are none."""
    return sum(int(line.split()[1]) for line in counts.splitlines() if line[:1].isdigit())


def goal_of(kind: str, number: int, window: Optional[Window]) -> Goal:
    """The goal of a kind: at `least` or `most` a number of live cells, an `empty` plane, or a `state` in a window."""
    if kind == "least":
        return Goal("counts", lambda it: population(it) >= number)
    if kind == "most":
        return Goal("counts", lambda it: population(it) <= number)
    if kind == "empty":
        return Goal("counts", lambda it: population(it) == 0)
    if kind == "state" and window:
        return Goal(window, lambda it: str(number) in it.split())
    raise Malformed("that is nothing to run until")


async def reach(goal: Goal, look: Look, start: int, last: int, told: Told) -> Optional[Found]:
    """A generation from `start` to `last` at which it is so, or None where it isn't at any that was looked at."""
    async def is_so(generation: int) -> bool:
        told(generation)
        return goal.is_so(await look(generation, goal.view))

    if await is_so(start):
        return Found(start)
    before, distance = start, 1
    while before < last:
        after = min(start + distance, last)
        if await is_so(after):
            return Found(await _least(before, after, is_so))
        before, distance = after, 2 * distance
    return None


async def _least(before: int, after: int, is_so: Callable[[int], Awaitable[bool]]) -> int:
    """A generation up to `after`, where it is so, at which it is so and isn't just before."""
    while after - before > 1:
        middle = (before + after) // 2
        if await is_so(middle):
            after = middle
        else:
            before = middle
    return after


class Shape(NamedTuple):
    """A pattern wherever it lies: its corner, and its live cells from there on, or the text where it is too large."""

    corner: Tuple[int, int]
    cells: object


def shape_of(text: str) -> Shape:
    """The shape of a macrocell text."""
    tree = Quadtree(text) if any(line[:1].isdigit() for line in text.splitlines()) else None
    if tree is None or not tree.live[-1]:
        return Shape((0, 0), ())
    if tree.live[-1] > MOST_CELLS:
        return Shape((0, 0), "\n".join(it for it in text.splitlines() if it[:1].isdigit()))
    cells, half = [], 1 << tree.level >> 1
    left = tree.quadrants(len(tree.rows) - 1, -half, -half)
    while left:
        level, number, x, y = left.pop()
        if level == 0:
            cells.append((x, y, number))
        elif tree.live[number]:
            left += tree.quadrants(number, x, y)
    x, y = min(it[0] for it in cells), min(it[1] for it in cells)
    return Shape((x, y), tuple(sorted((it[0] - x, it[1] - y, it[2]) for it in cells)))


async def comes_again(look: Look, start: int, last: int, told: Told) -> Optional[Found]:
    """From which generation on the pattern comes again, after how many, and moved how far; None where it isn't seen.

    What comes again does so after each multiple of its period. So a distance that has many factors is looked at first,
    from a generation on that doubles, and then divided. Nothing may be set in the pattern meanwhile.
    """
    shapes: Dict[int, Shape] = {}

    async def shape(generation: int) -> Shape:
        if generation not in shapes:
            told(generation)
            shapes[generation] = shape_of(await look(generation, "mc"))
        return shapes[generation]

    async def is_same(one: int, other: int) -> bool:
        return (await shape(one)).cells == (await shape(other)).cells

    for place, factors in enumerate(FACTORS):
        base, distance = start + (1 << place) - 1, math.lcm(*range(1, factors + 1))
        if base + distance > last:
            return None
        if await is_same(base, base + distance):
            break
    else:
        return None
    period = await _divided(distance, lambda it: is_same(base, base + it))
    is_here = await is_same(start, start + period)
    first = start if is_here else await _least(start, base, lambda it: is_same(it, it + period))
    (x, y), (then_x, then_y) = (await shape(first)).corner, (await shape(first + period)).corner
    return Found(first, period, (then_x - x, then_y - y))


async def _divided(distance: int, is_period: Callable[[int], Awaitable[bool]]) -> int:
    """The least divisor of a distance that is a period, where those that are, are the multiples of one."""
    for factor in _primes(distance):
        while distance % factor == 0 and await is_period(distance // factor):
            distance //= factor
    return distance


def _primes(number: int) -> List[int]:
    return [it for it in range(2, max(FACTORS) + 1) if number % it == 0 and all(it % by for by in range(2, it))]
