"""Hutton's automaton of 32 states, as the text of a .rule file.

After what T. Hutton writes in Golly's pattern Hutton-replicator; in Golly the rule is called Hutton32. The states are
those of Nobili's. A single wire of ordinary arrows can build here, and can go back by a cell. The arrow at its end
stands for a signal 1 where it is an excited ordinary one, and for a signal 0 where it is an excited special one; what
it does depends on the cell ahead. Built arrows have their direction from the one that builds them: E means forward, N
to the left, and so on. What the text leaves open is as in Golly 3.3.
"""
from __future__ import annotations

from typing import Optional, Sequence, Tuple, Union

from . import nobili
from .neumann import (
    ARROWS, AT_REST, BUILT, CONFLUENTS, DIRECTIONS, GROUND, OPPOSITE, SENSITIZED, Arrow, Confluent, Told, heard_by,
    next_arrow, next_confluent)
from .tree import VON_NEUMANN, tree_text

# Of the cell ahead an arrow hears the state where it is ground or sensitized, and else what it is told.
Heard = Union[Told, int]
# What Golly builds by the signals that came, where no excited arrow says a direction.
UNLED = {"010": 7, "100": 17, "110": 15, "0000": 8}


def told(own: int, place: str, state: int) -> Heard:
    """What a cell in the state `own` is told by the neighbour in this place."""
    said = nobili.told(place, state)
    if own not in ARROWS:
        return heard_by(own, said)
    if place != ARROWS[own].to:
        return Told.NOTHING if said in (Told.AWAY, Told.QUIET_SPECIAL) else said
    if state < 9:
        return state
    if state in ARROWS and ARROWS[state].is_special and not ARROWS[state].is_excited:
        return Told.QUIET_SPECIAL  # whatever its direction
    return said if said in (Told.ORDINARY, Told.SPECIAL) else Told.NOTHING


def following(state: int, heard: Sequence[Heard]) -> int:
    """The next state of a cell whose neighbours, in the order of VON_NEUMANN, tell this."""
    if state == GROUND:
        return _ground(heard)
    if state < 9:
        return _sensitized(SENSITIZED[state - 1], heard)
    if state not in ARROWS:
        return _confluent(state, heard)
    arrow = ARROWS[state]
    ahead = heard[VON_NEUMANN.index(arrow.to)]
    behind = [it for place, it in zip(VON_NEUMANN, heard) if place != arrow.to]
    if not arrow.is_special:
        return GROUND if Told.SPECIAL in heard else _ordinary(arrow, ahead, behind)
    found = _end_of_wire(arrow, ahead, behind) if arrow.is_excited else None
    return next_arrow(arrow, heard) if found is None else found


def _ground(heard: Sequence[Heard]) -> int:
    """An ordinary signal begins to build, and a special one alone builds an ordinary arrow ahead."""
    if Told.ORDINARY in heard:
        return 1
    leading = _leading(heard)
    return Arrow(False, False, leading[0]).state if leading else GROUND


def _sensitized(came: str, heard: Sequence[Heard]) -> int:
    came += "1" if Told.ORDINARY in heard else "0"
    built, leading = BUILT.get(came), _leading(heard)
    if built is None:
        return 1 + SENSITIZED.index(came)
    if isinstance(built, Confluent):
        return built.state
    if leading is None:
        return UNLED[came]
    to, kind = leading
    if came == "011" and kind is Told.SPECIAL:
        return AT_REST.state + DIRECTIONS.index(to)  # so Golly does where arrows of both kinds point at the cell
    turn = DIRECTIONS.index(to) + DIRECTIONS.index(built.to)
    return built._replace(to=DIRECTIONS[turn % 4]).state


def _ordinary(arrow: Arrow, ahead: Heard, behind: Sequence[Heard]) -> int:
    """What an ordinary arrow becomes to which no special signal comes.

    A wire goes back by this cell where it has a signal and is about to build an ordinary arrow, or a special one lies
    ahead. Where it is about to build a confluent cell, it begins to build here.
    """
    signal = Told.ORDINARY in behind or Told.CONFLUENT in behind
    coming = _coming(ahead, "1" if arrow.is_excited else "0")
    built = BUILT.get(coming or "")
    if signal and (ahead is Told.QUIET_SPECIAL or isinstance(built, Arrow) and not built.is_special):
        return GROUND
    if built == AT_REST:
        return 1 if signal else GROUND
    if not signal and arrow.is_excited and (ahead == GROUND or coming and not built):
        return Arrow(True, True, arrow.to).state
    return arrow._replace(is_excited=signal).state


def _end_of_wire(arrow: Arrow, ahead: Heard, behind: Sequence[Heard]) -> Optional[int]:
    """What an excited special arrow becomes that stands for a signal 0 of a wire that builds; None where it doesn't."""
    if ahead == GROUND:
        return arrow._replace(is_excited=Told.SPECIAL in behind).state
    coming, signal = _coming(ahead, "0"), Told.ORDINARY in behind
    if coming is None or not signal and Told.QUIET not in behind:
        return None
    if coming not in BUILT:
        return Arrow(not signal, True, arrow.to).state
    return GROUND if signal else Arrow(False, False, arrow.to).state


def _confluent(state: int, heard: Sequence[Heard]) -> int:
    """A confluent cell at rest is a crossing where two arrows lead into it and two away, in whatever order."""
    if Told.SPECIAL in heard:
        return GROUND
    into = sum(it in (Told.QUIET, Told.ORDINARY, Told.QUIET_SPECIAL) for it in heard)
    if state not in CONFLUENTS or state == AT_REST.state and into == heard.count(Told.AWAY) == 2:
        return nobili.crossed(heard)
    return next_confluent(CONFLUENTS[state], heard)


def _leading(heard: Sequence[Heard]) -> Optional[Tuple[str, Heard]]:
    """The direction and the kind of the excited arrow that decides, of those that point at the cell."""
    for to in DIRECTIONS:
        said = heard[VON_NEUMANN.index(OPPOSITE[to])]
        if said in (Told.ORDINARY, Told.SPECIAL):
            return to, said
    return None


def _coming(ahead: Heard, signal: str) -> Optional[str]:
    """The signals that the cell ahead will have got with this one, or None where it isn't sensitized."""
    return SENSITIZED[ahead - 1] + signal if isinstance(ahead, int) and ahead else None


def rule_text() -> str:
    """The text of the file Hutton32.rule."""
    return tree_text("Hutton32", 32, VON_NEUMANN, told, following)
