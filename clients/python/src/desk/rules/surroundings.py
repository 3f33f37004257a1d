"""What the cells of a pattern see around them."""
from __future__ import annotations

from typing import Dict, Sequence, Tuple

Place = Tuple[int, int]  # x, and y downwards
World = Dict[Place, int]  # the states of the live cells

# Where the nine cells lie, seen from the first of them: itself, n, ne, e, se, s, sw, w and nw.
OFFSETS = ((0, 0), (0, -1), (1, -1), (1, 0), (1, 1), (0, 1), (-1, 1), (-1, 0), (-1, -1))


def codes_in(world: World, places: Sequence[int]) -> Dict[Place, int]:
    """What each cell sees that sees a live one, as a number: its bytes, the lowest first, are the nine states.

    It goes by the live cells, of which there are fewer than of those that see one.

    places: which of the nine are looked at; the others are 0
    """
    weights = [(*OFFSETS[place], 1 << 8 * place) for place in places]
    seen: Dict[Place, int] = {}
    at = seen.get
    for (x, y), state in world.items():
        for right, down, weight in weights:
            place = x - right, y - down
            seen[place] = at(place, 0) + state * weight
    return seen


def around_of(code: int) -> bytes:
    """The nine states of such a number."""
    return code.to_bytes(len(OFFSETS), "little")
