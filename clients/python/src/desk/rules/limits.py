"""What every rule of the desk has to be, as far as a name tells it."""
from __future__ import annotations

from ..errors import Malformed


def check(name: str, states: int, is_born_of_nothing: bool) -> None:
    """Raises Malformed where no rule has so many states, or where cells are born without a live neighbour."""
    if not 2 <= states <= 256:
        raise Malformed(f"{name!r} has {states} states, and a rule has 2 to 256")
    if is_born_of_nothing:
        raise Malformed(f"{name!r} has B0, by which the whole empty plane would become live; it has to stay empty")
