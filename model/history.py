"""What a bookmark shows: the pattern is computed anew from the start, cell by cell and generation by generation."""
from __future__ import annotations

from typing import List, Tuple

from documents import Bookmark, Document, Intervention, cells_at
from worlds import BeyondTheModel, NextState, World, laid, stepped

# A pattern that comes back after so many generations or fewer goes on coming back. What lies between is left
# out, or nothing could be said of far generations.
LONGEST_PERIOD = 4

# So many live cells in all generations that are computed of a branch are too many. To look whether a pattern
# comes back counts as so many of them.
MOST_STEPPED = 400000
A_LOOK = 40


def shown_by(document: Document, bookmark: Bookmark) -> bytes:
    """The text that starting over gives for a bookmark."""
    world = left(document, bookmark.branch, bookmark.generation)
    return bookmark.view.text_of(world, document.rule, bookmark.generation)


def left(document: Document, branch: int, generation: int) -> World:
    """The pattern behind the interventions of a generation of a branch.

    A branch begins with what its parent has there, and branch 0 with the start.
    """
    first = document.fork_of(branch)
    world = document.start if branch == 0 else left(document, document.branches[branch].parent, first)
    interventions = document.interventions_of(branch)
    cells = 0
    while True:
        world = laid(world, cells_at(interventions, first))
        if first == generation:
            return world
        quiet = _next_act(interventions, first, generation)
        while first < quiet:
            world, passed = _onwards(world, document.rule, quiet - first)
            first += passed
            cells += LONGEST_PERIOD * len(world) + A_LOOK
            if cells > MOST_STEPPED:
                raise BeyondTheModel


def _next_act(interventions: List[Intervention], now: int, most: int) -> int:
    """The first generation after the present one at which something acts, at most the last one that is wanted."""
    found = most
    for intervention in interventions:
        acts = intervention.acts
        if now < acts.first:
            found = min(found, acts.first)
        elif now < acts.last:
            coming = now + acts.distance - (now - acts.first) % acts.distance
            found = min(found, coming if coming <= acts.last else most)
    return found


def _onwards(world: World, rule: NextState, generations: int) -> Tuple[World, int]:
    """The pattern after some generations, at most as many, and how many these are: all of the periods that fit
    where it comes back soon, else those that were computed to see that it doesn't."""
    now = world
    for passed in range(1, min(LONGEST_PERIOD, generations) + 1):
        now = stepped(now, rule)
        if now == world:
            return now, generations // passed * passed
    return now, min(LONGEST_PERIOD, generations)
