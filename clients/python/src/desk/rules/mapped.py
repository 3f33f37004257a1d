"""Rules that say the next state for each neighbourhood one by one: Golly's MAP names, as texts of .rule files.

Behind MAP stand bits in base 64, from the neighbourhood without a live cell on, in the order of Golly's help on
QuickLife: 512 bits where all eight neighbours are looked at, 128 for six of them as on a hexagonal grid, and 32 for the
four nearest. One more number is that of the states, as in MAP.../3; a cell that doesn't stay then grows old before it
is empty.
"""
from __future__ import annotations

import base64
import re
from typing import NamedTuple, Optional, Sequence, Tuple

from ..errors import Malformed
from .limits import check
from .tree import MOORE, tree_text

# The cells that decide, the one of the highest bit first, by how many letters of base 64 say what they decide.
CELLS = {
    86: ("NW", "N", "NE", "W", "C", "E", "SW", "S", "SE"),
    22: ("NW", "N", "W", "C", "E", "S", "SE"),
    6: ("N", "W", "C", "E", "S"),
}
# Golly 3.3 reads the six neighbours from below where there are two states, and from above where there are more.
SIX_OF_TWO_STATES = ("S", "SE", "W", "C", "E", "NW", "N")
FORM = re.compile(r"MAP(?P<bits>[A-Za-z0-9+/]{86}|[A-Za-z0-9+/]{22}|[A-Za-z0-9+/]{6})(==)?(?:/(?P<states>[0-9]{1,9}))?")


class Mapped(NamedTuple):
    """The cells that decide, whether a cell is live for each way in which they are, and how many states there are."""

    name: str
    cells: Sequence[str]
    is_live: Sequence[bool]
    states: int

    def next(self, state: int, live: Sequence[str]) -> int:
        """The next state of a cell whose neighbours in state 1 are these, named as in MOORE."""
        if state > 1:
            return (state + 1) % self.states
        ones = {*live, "C"} if state else live
        index = int("".join("1" if cell in ones else "0" for cell in self.cells), 2)
        return 1 if self.is_live[index] else 2 * state % self.states

    def text(self) -> str:
        """The text of a .rule file."""
        def is_live(own: int, place: str, state: int) -> bool:
            return own < 2 and state == 1 and place in self.cells  # a cell that grows old doesn't look

        def following(state: int, lives: Tuple[bool, ...]) -> int:
            return self.next(state, [place for place, is_live in zip(MOORE, lives) if is_live])

        return tree_text(self.name, self.states, MOORE, is_live, following)


def meaning(name: str) -> Optional[Mapped]:
    """What a MAP name says, or None where it is no such name."""
    found = FORM.fullmatch(name.strip())
    if not found:
        return None
    letters = found["bits"]
    cells = SIX_OF_TWO_STATES if len(letters) == 22 and not found["states"] else CELLS[len(letters)]
    bits = "".join(f"{byte:08b}" for byte in base64.b64decode(letters + "=" * (-len(letters) % 4)))
    return Mapped(found[0], cells, [bit == "1" for bit in bits[:2 ** len(cells)]], int(found["states"] or 2))


def rule_text(name: str) -> str:
    """The text of a .rule file for a rule with a MAP name. Raises Malformed where there is none."""
    rule = meaning(name)
    if rule is None:
        raise Malformed(f"{name!r} is no MAP name; behind MAP stand 86, 22 or 6 letters of base 64")
    check(name, rule.states, rule.is_live[0])
    return rule.text()
