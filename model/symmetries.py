"""Neighbourhoods, and the symmetries that each of them has: how they arrange a cell's neighbours, taken as a circle."""
from __future__ import annotations

import enum
import math
from collections import Counter
from typing import FrozenSet, List, Sequence, Tuple

States = FrozenSet[int]
Circle = Tuple[States, ...]


class Symmetry(enum.Enum):
    """The symmetries by their names."""

    NONE = b"none"
    ROTATE2 = b"rotate2"
    ROTATE3 = b"rotate3"
    ROTATE4 = b"rotate4"
    ROTATE6 = b"rotate6"
    ROTATE8 = b"rotate8"
    ROTATE4_REFLECT = b"rotate4reflect"
    ROTATE6_REFLECT = b"rotate6reflect"
    ROTATE8_REFLECT = b"rotate8reflect"
    REFLECT_HORIZONTAL = b"reflect_horizontal"
    REFLECT = b"reflect"
    PERMUTE = b"permute"

    def admits(self, sets: Circle, states: Sequence[int]) -> bool:
        """Whether some arrangement of the sets has each state in the set at its place."""
        if self is Symmetry.PERMUTE:
            return _admits_in_some_order(sets, tuple(states))
        return any(
            all(state in admitted for admitted, state in zip(arranged, states)) for arranged in self._arrangements(sets)
        )

    def count(self, sets: Circle) -> int:
        """How many different arrangements there are."""
        if self is Symmetry.PERMUTE:
            alike = Counter(sets).values()
            return math.factorial(len(sets)) // math.prod(math.factorial(it) for it in alike)
        return len(set(self._arrangements(sets)))

    def _arrangements(self, circle: Circle) -> List[Circle]:
        """The circle as each map of the symmetry but `permute` puts it."""
        turns, is_reflected = TURNS[self]
        circles = [circle, circle[:1] + circle[:0:-1]] if is_reflected else [circle]
        step = len(circle) // turns
        return [it[turn * step :] + it[: turn * step] for it in circles for turn in range(turns)]


# How many turns each symmetry has, and whether it has the reflection that keeps the first place. Of two
# neighbours a turn is what swaps them.
TURNS = {
    Symmetry.NONE: (1, False),
    Symmetry.ROTATE2: (2, False),
    Symmetry.ROTATE3: (3, False),
    Symmetry.ROTATE4: (4, False),
    Symmetry.ROTATE6: (6, False),
    Symmetry.ROTATE8: (8, False),
    Symmetry.ROTATE4_REFLECT: (4, True),
    Symmetry.ROTATE6_REFLECT: (6, True),
    Symmetry.ROTATE8_REFLECT: (8, True),
    Symmetry.REFLECT_HORIZONTAL: (1, True),
    Symmetry.REFLECT: (2, False),
}


class Neighborhood(enum.Enum):
    """The neighbourhoods by their names, each with the places of its neighbours among nine states and with the
    names of its symmetries."""

    VON_NEUMANN = "vonNeumann", (1, 3, 5, 7), "none rotate4 rotate4reflect reflect_horizontal permute"
    MOORE = (
        "Moore",
        (1, 2, 3, 4, 5, 6, 7, 8),
        "none rotate4 rotate8 rotate4reflect rotate8reflect reflect_horizontal permute",
    )
    HEXAGONAL = "hexagonal", (1, 3, 4, 5, 7, 8), "none rotate2 rotate3 rotate6 rotate6reflect permute"
    ONE_DIMENSIONAL = "oneDimensional", (7, 3), "none reflect permute"

    def __init__(self, title: str, places: Tuple[int, ...], symmetries: str) -> None:
        self.title = title.encode()
        self.places = places
        self.symmetries = [Symmetry(name.encode()) for name in symmetries.split()]


def _admits_in_some_order(sets: Circle, states: Tuple[int, ...]) -> bool:
    """Whether the states can be handed out, one to each set that has it."""
    if not sets:
        return True
    first, rest = sets[0], sets[1:]
    return any(
        state in first and state not in states[:at] and _admits_in_some_order(rest, states[:at] + states[at + 1 :])
        for at, state in enumerate(states)
    )
