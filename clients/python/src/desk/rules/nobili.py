"""Nobili's automaton of 32 states, as the text of a .rule file.

After R. Nobili and U. Pesavento, Generalised von Neumann's Automata, 1996; in Golly the rule is called Nobili32. All is
as in von Neumann's, but for confluent cells. Where two ordinary arrows at a right angle lead into one, and an arrow
leads away opposite to each, it is a crossing: each signal goes straight on, as through an arrow. States 29 to 31 are
those of an excited crossing. And a confluent cell from which no arrow leads away is a memory, which keeps its signals
until it takes another one.
"""
from __future__ import annotations

from typing import Sequence

from . import neumann
from .neumann import AT_REST, CONFLUENTS, GROUND, OPPOSITE, Told, heard_by, takes
from .tree import VON_NEUMANN, tree_text

CROSSING = {AT_REST.state: "", 29: "EW", 30: "NS", 31: "EWNS"}  # the neighbours that an excited crossing excites


def told(place: str, state: int) -> Told:
    """What the neighbour in this place tells a cell."""
    return Told.CONFLUENT if place in CROSSING.get(state, "") else neumann.told(place, state)


def following(state: int, heard: Sequence[object]) -> int:
    """The next state of a cell whose neighbours, in the order of VON_NEUMANN, tell this."""
    if state < AT_REST.state:
        return neumann.following(state, heard)
    if Told.SPECIAL in heard:
        return GROUND
    into = {place for place, it in zip(VON_NEUMANN, heard) if it in (Told.QUIET, Told.ORDINARY)}
    away = {place for place, it in zip(VON_NEUMANN, heard) if it is Told.AWAY}
    if len(into) == 2 and away == {OPPOSITE[place] for place in into}:
        return crossed(heard)
    if state in CONFLUENTS and not away and not takes(heard):
        return state
    return neumann.next_confluent(CONFLUENTS.get(state, AT_REST), heard)


def crossed(heard: Sequence[object]) -> int:
    """The state of a crossing that takes these signals."""
    from_ = {place for place, it in zip(VON_NEUMANN, heard) if it is Told.ORDINARY}
    excites = "".join(axis for axis in ("EW", "NS") if from_ & set(axis))
    return next(state for state, excited in CROSSING.items() if excited == excites)


def rule_text() -> str:
    """The text of the file Nobili32.rule."""
    def heard(own: int, place: str, state: int) -> Told:
        return heard_by(own, told(place, state))

    return tree_text("Nobili32", 32, VON_NEUMANN, heard, following)
