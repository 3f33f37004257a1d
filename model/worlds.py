"""Patterns, and the step from one generation to the next."""
from __future__ import annotations

from typing import Dict, Iterable, NamedTuple, Protocol, Tuple

# The states of the live cells by their places. A cell that isn't among them has the state 0.
World = Dict[Tuple[int, int], int]

# The states of a cell and those around it, a byte each: the cell itself, N, NE, E, SE, S, SW, W, NW.
Around = bytes

# Where these lie, seen from the cell. N is above it, which is y - 1.
OFFSETS = ((0, 0), (0, -1), (1, -1), (1, 0), (1, 1), (0, 1), (-1, 1), (-1, 0), (-1, -1))

# The same with what a state counts there in a number whose bytes are the nine states.
WEIGHTS = tuple((right, down, 256**at) for at, (right, down) in enumerate(OFFSETS))

NINE_ZEROS: Around = bytes(9)


class BeyondTheModel(Exception):
    """A pattern of too many cells, or one to be followed too far, for what goes cell by cell."""


class Cell(NamedTuple):
    """A place and the state that a cell is to have there."""

    x: int
    y: int
    state: int


class NextState(Protocol):
    """What says which state a cell has in the next generation. Nine zeros have to give 0."""

    def next_state(self, around: Around) -> int:
        """The next state of a cell, by those at and around it."""


def laid(world: World, cells: Iterable[Cell]) -> World:
    """The world with these cells set, where the last mention of a cell wins and 0 takes it away."""
    found = dict(world)
    for cell in cells:
        if cell.state:
            found[cell.x, cell.y] = cell.state
        else:
            found.pop((cell.x, cell.y), None)
    return found


def stepped(world: World, rule: NextState) -> World:
    """The next generation. A cell with nothing live at or around it stays empty, so it isn't asked for."""
    found = {}
    for place, states in _seen_from(world).items():
        state = rule.next_state(states.to_bytes(len(OFFSETS), "little"))
        if state:
            found[place] = state
    return found


def _seen_from(world: World) -> Dict[Tuple[int, int], int]:
    """What each place with a live cell at or around it sees: the bytes of these, as one number.

    It goes by the live cells, of which there are fewer than such places: most of the model's time goes by here.
    """
    seen: Dict[Tuple[int, int], int] = {}
    at = seen.get
    for (x, y), state in world.items():
        for right, down, weight in WEIGHTS:
            place = x - right, y - down
            seen[place] = at(place, 0) + state * weight
    return seen
