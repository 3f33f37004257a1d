"""What a document has, as `list` tells it."""
from __future__ import annotations

from dataclasses import dataclass, field
from typing import List, Optional

from .notebook.tables import listing_table
from .words import View, view_of


@dataclass(frozen=True)
class Branch:
    """A branch, which leaves its parent at a generation. Branch 0 isn't listed."""

    id: int
    parent: int
    generation: int


@dataclass(frozen=True)
class Intervention:
    """An intervention of the branch `on`, and how many cells it sets.

    It acts at the generation `first`, and where it has a distance, at each that is so far behind one at which it
    acts, up to `last`. Where it acts once, `last` is `first`.
    """

    id: int
    on: int
    first: int
    last: int
    distance: Optional[int]
    cells: int


@dataclass(frozen=True)
class Bookmark:
    """A bookmark at a generation of the branch `on`, and whether what it shows is known now."""

    id: int
    on: int
    generation: int
    view: View
    is_current: bool


@dataclass(frozen=True)
class Listing:
    """What a document has, by rising ids."""

    branches: List[Branch] = field(default_factory=list)
    interventions: List[Intervention] = field(default_factory=list)
    bookmarks: List[Bookmark] = field(default_factory=list)

    def _repr_html_(self) -> str:
        return listing_table(self)


def listing_of(text: str) -> Listing:
    """What the lines of a listing say."""
    found = Listing()
    for line in text.splitlines():
        kind, *words = line.split()
        if kind == "branch":
            id_, _of, parent, _at, generation = words
            found.branches.append(Branch(int(id_), int(parent), int(generation)))
        elif kind == "intervention":
            found.interventions.append(_intervention_of(words))
        else:
            id_, _on, branch, _at, generation, *view, known = words
            is_current = known == "current"
            found.bookmarks.append(Bookmark(int(id_), int(branch), int(generation), view_of(view), is_current))
    return found


def _intervention_of(words: List[str]) -> Intervention:
    id_, _on, branch, acts, *when, _cells, count = words
    if acts == "every":
        distance, first, last = map(int, when)
        return Intervention(int(id_), int(branch), first, last, distance, int(count))
    return Intervention(int(id_), int(branch), int(when[0]), int(when[0]), None, int(count))
