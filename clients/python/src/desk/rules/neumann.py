"""Von Neumann's automaton of 29 states, as the text of a .rule file.

After J. von Neumann, Theory of Self-Reproducing Automata, edited and completed by A. W. Burks, 1966, in the numbers
that Golly has for the states, where the rule is called JvN29. Arrows, which are ordinary or special, lead signals from
cell to cell. A confluent cell takes a signal where all ordinary arrows into it bring one, and a generation later passes
it on to the arrows that lead away. A signal into the ground begins to build a cell there, and the signals that follow
say which. An arrow becomes ground where a signal of the other kind comes to it, and a confluent cell where a special
one does.
"""
from __future__ import annotations

from enum import Enum
from typing import Dict, NamedTuple, Sequence, Union

from .tree import VON_NEUMANN, tree_text

GROUND = 0
SENSITIZED = ("", "0", "1", "00", "01", "10", "11", "000")  # states 1 to 8, by the signals that came since the first
DIRECTIONS = "ENWS"  # the order of the states of arrows: to the right, up, to the left, down
OPPOSITE = {"E": "W", "N": "S", "W": "E", "S": "N"}


class Arrow(NamedTuple):
    """A transmission state: its kind, whether it is excited, and where it points. They have the numbers 9 to 24."""

    is_special: bool
    is_excited: bool
    to: str

    @property
    def state(self) -> int:
        """The number of the state."""
        return 9 + 8 * self.is_special + 4 * self.is_excited + DIRECTIONS.index(self.to)


class Confluent(NamedTuple):
    """A confluent state: whether it is excited, and whether it will be next. They have the numbers 25 to 28."""

    is_excited: bool
    is_next: bool

    @property
    def state(self) -> int:
        """The number of the state."""
        return 25 + 2 * self.is_excited + self.is_next


BOTH = (False, True)
ARROWS = {it.state: it for it in (Arrow(kind, is_on, to) for kind in BOTH for is_on in BOTH for to in DIRECTIONS)}
CONFLUENTS = {it.state: it for it in (Confluent(now, then) for now in BOTH for then in BOTH)}
AT_REST = Confluent(False, False)
# What a sensitized cell becomes by the signals that came.
BUILT: Dict[str, Union[Arrow, Confluent]] = {
    "0000": Arrow(False, False, "E"), "0001": Arrow(False, False, "N"), "001": Arrow(False, False, "W"),
    "010": Arrow(False, False, "S"), "011": Arrow(True, False, "E"), "100": Arrow(True, False, "N"),
    "101": Arrow(True, False, "W"), "110": Arrow(True, False, "S"), "111": AT_REST,
}


class Told(Enum):
    """What a cell is told by a neighbour. The first four are arrows that point at the cell."""

    QUIET = "an ordinary arrow that isn't excited"
    ORDINARY = "an excited ordinary arrow"
    QUIET_SPECIAL = "a special arrow that isn't excited"
    SPECIAL = "an excited special arrow"
    AWAY = "an arrow that points elsewhere"
    CONFLUENT = "an excited confluent cell"
    NOTHING = "anything else"


def told(place: str, state: int) -> Told:
    """What the neighbour in this place tells a cell."""
    arrow = ARROWS.get(state)
    if arrow is None:
        return Told.CONFLUENT if CONFLUENTS.get(state, AT_REST).is_excited else Told.NOTHING
    if arrow.to != OPPOSITE[place]:
        return Told.AWAY
    if arrow.is_special:
        return Told.SPECIAL if arrow.is_excited else Told.QUIET_SPECIAL
    return Told.ORDINARY if arrow.is_excited else Told.QUIET


def heard_by(own: int, said: Told) -> Told:
    """What of it is of use to a cell in this state."""
    if own < 9:
        useful = said in (Told.ORDINARY, Told.SPECIAL)
    elif own in ARROWS:
        useful = said in (Told.ORDINARY, Told.SPECIAL, Told.CONFLUENT)
    else:
        useful = said is not Told.CONFLUENT
    return said if useful else Told.NOTHING


def following(state: int, heard: Sequence[object]) -> int:
    """The next state of a cell whose neighbours, in the order of VON_NEUMANN, tell this."""
    if state in ARROWS:
        return next_arrow(ARROWS[state], heard)
    if state in CONFLUENTS:
        return next_confluent(CONFLUENTS[state], heard)
    signal = Told.ORDINARY in heard or Told.SPECIAL in heard
    if state == GROUND:
        return 1 if signal else GROUND
    came = SENSITIZED[state - 1] + ("1" if signal else "0")
    return BUILT[came].state if came in BUILT else 1 + SENSITIZED.index(came)


def next_arrow(arrow: Arrow, heard: Sequence[object]) -> int:
    """An arrow takes signals of its kind, and those of confluent cells, from everywhere but from ahead."""
    own, other = (Told.SPECIAL, Told.ORDINARY) if arrow.is_special else (Told.ORDINARY, Told.SPECIAL)
    if other in heard:
        return GROUND
    excited = any(it in (own, Told.CONFLUENT) for place, it in zip(VON_NEUMANN, heard) if place != arrow.to)
    return arrow._replace(is_excited=excited).state


def next_confluent(confluent: Confluent, heard: Sequence[object]) -> int:
    """A confluent cell passes a signal on in the generation after the one in which it has taken it."""
    if Told.SPECIAL in heard:
        return GROUND
    return Confluent(confluent.is_next, takes(heard)).state


def takes(heard: Sequence[object]) -> bool:
    """Whether a confluent cell takes a signal: all ordinary arrows into it have to bring one."""
    return Told.ORDINARY in heard and Told.QUIET not in heard


def rule_text() -> str:
    """The text of the file JvN29.rule."""
    def heard(own: int, place: str, state: int) -> Told:
        return heard_by(own, told(place, state))

    return tree_text("JvN29", 29, VON_NEUMANN, heard, following)
