"""Painting: which part of a document has the cells that a user sets at a place."""
from __future__ import annotations

from typing import Callable, Dict, List, NamedTuple, Sequence, Tuple

from ..words import Cell

from .document import Document, Intervention

MOST_CELLS = 10_000  # of a command, as docs/USING.md says
NewId = Callable[[str], int]
Spot = Tuple[int, int]


class Place(NamedTuple):
    """A generation of a branch."""

    branch: int
    generation: int


def painted(document: Document, place: Place, cells: Sequence[Cell], new_id: NewId) -> Document:
    """The document with cells set at a place.

    A cell that interventions set there already is changed in the last of them, also where that acts again and again.
    Others are added to the intervention that acts there alone, or at generation 0 of branch 0 to the start, or to new
    interventions.
    """
    there = {it: value for it, value in document.interventions.items() if acts(value, place)}
    owners = {(x, y): it for it, value in sorted(there.items()) for x, y, _ in value.cells}
    changes: Dict[int, Dict[Spot, int]] = {}
    rest: List[Cell] = []
    for x, y, state in cells:
        if (x, y) in owners:
            changes.setdefault(owners[x, y], {})[x, y] = state
        else:
            rest.append((x, y, state))
    changed = {it: _changed(there[it], states) for it, states in changes.items()}
    return _added(document._replace(interventions={**document.interventions, **changed}), place, rest, new_id)


def acts(value: Intervention, place: Place) -> bool:
    """Whether an intervention acts at a place."""
    if value.branch != place.branch or not value.first <= place.generation <= value.last:
        return False
    return not value.distance or (place.generation - value.first) % value.distance == 0


def repeating(old: Document, new: Document) -> List[int]:
    """The interventions that act again and again and that were changed."""
    return [it for it, value in new.interventions.items()
            if value.distance and old.interventions.get(it) not in (None, value)]


def _changed(value: Intervention, states: Dict[Spot, int]) -> Intervention:
    return value._replace(cells=tuple((x, y, states.get((x, y), state)) for x, y, state in value.cells))


def _added(document: Document, place: Place, cells: List[Cell], new_id: NewId) -> Document:
    """The document with cells that no intervention sets at a place."""
    if not cells:
        return document
    interventions = dict(document.interventions)
    alone = [it for it, value in interventions.items() if not value.distance and acts(value, place)]
    if not alone and place == Place(0, 0):
        parts = [tuple(cells[it:it + MOST_CELLS]) for it in range(0, len(cells), MOST_CELLS)]
        return document._replace(cells=(*document.cells, *parts))
    if alone:
        value, room = interventions[max(alone)], MOST_CELLS - len(interventions[max(alone)].cells)
        interventions[max(alone)] = value._replace(cells=(*value.cells, *cells[:room]))
        cells = cells[room:]
    for it in range(0, len(cells), MOST_CELLS):
        part = tuple(cells[it:it + MOST_CELLS])
        interventions[new_id("interventions")] = Intervention(place.branch, place.generation, 0, place.generation, part)
    return document._replace(interventions=interventions)
