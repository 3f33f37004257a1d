"""Which lines of the rule fire over a range of generations of a branch: a tab asks for it, and is told as it goes on.

What the rule gives as it is read here is compared with the program's next generation, so that no count is of another
reading. Lines that can never fire are found first, since no pattern is needed for that.
"""
from __future__ import annotations

import asyncio
import time
from functools import lru_cache
from typing import Dict, List, NamedTuple, Tuple

from ..errors import Trouble
from ..formats.cells import cells_in
from ..formats.macrocell import Quadtree
from ..lines import Step, checked
from ..rules.dead_lines import Dead, Unknown, Verdict, verdicts_of
from ..rules.fires import Fires
from ..rules.neighborhoods import PLACES
from ..rules.reader import Rule, rule_of
from ..rules.surroundings import World
from ..rules.tables import Table

from .document import Document, File
from .edits import natural, number
from .looks import MOST_TEXT, Message, Tab
from .painting import Place, acts
from .probe import Probe
from .rule_id import rule_id
from .session import Session

# The most steps that are counted, the most cells of a pattern, and the most neighbourhoods that are listed.
MOST_STEPS, MOST_CELLS, MOST_UNMATCHED = 100_000, 200_000, 20
APART = 0.5  # seconds between two reports


class Asked(NamedTuple):
    """What is counted: the steps from these generations of a branch of a document, which has a rule."""

    document: Document
    rule: File
    branch: int
    generations: range


def count_lines(session: Session, tab: Tab, message: Message) -> Message:
    """Begins to count, in place of what the tab had asked for before."""
    asked = _asked(session.document, message)
    tab.begin("count", _told(session, tab, asked))
    return {"of": len(asked.generations)}


def end_count(session: Session, tab: Tab, message: Message) -> Message:
    """Ends it."""
    tab.stop("count")
    return {}


def _asked(document: Document, message: Message) -> Asked:
    branch, first, last = number(message, "branch"), natural(message, "first"), natural(message, "last")
    generations = range(first, last, max(1, natural(message, "every")))
    if document.rule is None:
        raise Trouble("there is no rule yet")
    if branch and branch not in document.branches:
        raise Trouble(f"there is no branch {branch} any more")
    fork = document.branches[branch].generation if branch else 0
    if first < fork:
        raise Trouble(f"branch {branch} begins at generation {fork}")
    if first >= last:
        raise Trouble("the last generation has to be behind the first one")
    if (last - first) // generations.step > MOST_STEPS:
        raise Trouble(f"more than {MOST_STEPS} steps are too many; count from each 10th generation, for instance")
    return Asked(document, document.rule, branch, generations)


async def _told(session: Session, tab: Tab, asked: Asked) -> None:
    """Tells the tab what is counted, from time to time and at the end."""
    epoch, done = session.views.epoch, 0

    def tell(**more: object) -> None:
        tab.say({"type": "fires", "epoch": epoch, "ruleId": rule_id(asked.rule), "done": done, **more})

    try:
        rule, verdicts = await asyncio.to_thread(_read, asked.rule.text, asked.rule.name)
        tell(**_words_of(rule, verdicts))
        fires, shown = Fires(rule), time.monotonic()
        with Probe(session, MOST_TEXT) as probe:
            texts = probe.texts(asked.branch, _generations(asked.generations), "mc")
            try:
                before, at = NOTHING_YET, -1
                for generation in asked.generations:
                    if at != generation:
                        before = await asyncio.to_thread(_cells, await texts.__anext__(), generation)
                    after = await asyncio.to_thread(_cells, await texts.__anext__(), generation + 1)
                    laid = _laid(asked, generation + 1)
                    await asyncio.to_thread(checked, fires, Step(generation, before, after), laid)
                    before, at, done = after, generation + 1, done + 1
                    if time.monotonic() > shown + APART:
                        shown = time.monotonic()
                        tell(counts=_counts(fires))
                tell(counts=_counts(fires), unmatched=_unmatched(fires), isEnded=True)
            except Trouble as trouble:
                tell(counts=_counts(fires), unmatched=_unmatched(fires), isEnded=True, fault=str(trouble))
    except Trouble as trouble:
        tell(isEnded=True, fault=str(trouble))


NOTHING_YET: World = {}


def _generations(firsts: range) -> List[int]:
    """All generations whose patterns are needed, each once."""
    return sorted({at for first in firsts for at in (first, first + 1)})


@lru_cache(maxsize=4)
def _read(text: bytes, name: str) -> Tuple[Rule, Dict[int, Verdict]]:
    """A rule, and of each of its lines whether it can ever fire."""
    rule = rule_of(text, name)
    return rule, verdicts_of(rule)


def _cells(text: str, generation: int) -> World:
    """The live cells of a pattern. Trouble: there are too many."""
    tree = Quadtree(text)
    if tree.live[-1] > MOST_CELLS:
        raise Trouble(f"generation {generation} has {tree.live[-1]} live cells, and at most {MOST_CELLS} are looked at")
    return cells_in(tree)


def _laid(asked: Asked, generation: int) -> World:
    """What interventions set at a generation of the branch; the last one wins."""
    place = Place(asked.branch, generation)
    acting = [value for _, value in sorted(asked.document.interventions.items()) if acts(value, place)]
    return {(x, y): state for value in acting for x, y, state in value.cells}


def _words_of(rule: Rule, verdicts: Dict[int, Verdict]) -> Message:
    """The lines that may decide, those that can never fire with the lines that take all they match, and those of which
    that isn't known."""
    symmetry = rule.kind.symmetry if isinstance(rule.kind, Table) else "none"
    return {"lines": [it.number for it in rule.lines], "isTable": isinstance(rule.kind, Table),
            "isSymmetric": symmetry != "none",
            "places": [PLACES[it] for it in rule.places],
            "dead": {number: it.by for number, it in verdicts.items() if isinstance(it, Dead)},
            "unknown": [number for number, it in verdicts.items() if isinstance(it, Unknown)]}


def _counts(fires: Fires) -> Dict[int, int]:
    return dict(fires.cells)


def _unmatched(fires: Fires) -> Message:
    """The neighbourhoods that no line matches, the most frequent first, and how many cells saw others."""
    found = fires.unmatched()
    return {"listed": [{"inputs": it.inputs, "cells": it.cells} for it in found[:MOST_UNMATCHED]],
            "others": len(found[MOST_UNMATCHED:]), "cells": sum(it.cells for it in found[MOST_UNMATCHED:])}
