"""Why a cell is in its state: what set it, or which line decided it by the reader of rules in Python.

The reader is no part of what is proved. So the page compares what is said here with the state that the program shows.
"""
from __future__ import annotations

from dataclasses import asdict
from functools import lru_cache
from typing import Dict, List, NamedTuple, Optional, Tuple

from ..errors import Malformed, Refused
from ..rules.neighborhoods import PLACES
from ..rules.reader import Rule, rule_of
from ..rules.reasons import ByLine, ByTree, Reason
from ..rules.tables import Table

from .document import Document, File
from .edits import natural, number
from .looks import Message
from .painting import Place, acts
from .session import Session

SHAPES = {"vonNeumann": "von Neumann", "oneDimensional": "one-dimensional"}


class Origin(NamedTuple):
    """Where a cell has its state from.

    kind: `start`, `intervention`, or `step` where the rule gave it by the generation before
    branch: whose intervention it is, or in which branch the generation before is: a parent's at a branch's fork
    id: which intervention
    """

    kind: str
    branch: int
    id: int = 0


def origin_of(document: Document, place: Place, cell: Tuple[int, int]) -> Origin:
    """Where a cell has its state from at a place. At its fork a branch begins with what its parent has there."""
    setting = [it for it, value in document.interventions.items()
               if acts(value, place) and any((x, y) == cell for x, y, _ in value.cells)]
    if setting:
        return Origin("intervention", place.branch, max(setting))  # the last one wins
    branch = document.branches.get(place.branch)
    if branch and place.generation == branch.generation:
        return origin_of(document, Place(branch.parent, place.generation), cell)
    return Origin("step" if place.generation else "start", place.branch)


@lru_cache(maxsize=4)
def _read(rule: File) -> Rule:
    return rule_of(rule.text, rule.name)


def reason_of(rule: Optional[File], around: List[int]) -> Message:
    """What decides the next state of a cell by the nine states at and around it, with the neighbourhood's shape.

    The rule of an empty desk has no file: there a cell stays as it is. Refused: the reader can't read the rule.
    """
    if rule is None:
        return {"kind": "no rule", "state": around[0], "shape": "", "places": ["c"]}
    read = _read(rule)
    return {**_told(read.why(around)), **_shape_of(read)}


def _told(reason: Reason) -> Message:
    """A reason as the page gets it."""
    if isinstance(reason, ByLine):
        line: Dict[str, object] = {"line": reason.line.number, "text": reason.line.text}
        return {"kind": "line", "state": reason.state, **line, "neighbours": reason.neighbours,
                "map": reason.map._asdict(), "entries": reason.entries, "values": reason.values}
    if isinstance(reason, ByTree):
        way = [{"line": it.line.number, "text": it.line.text, "asks": it.asks, "state": it.state,
                "leadsTo": it.leads_to} for it in reason.way]
        return {"kind": "tree", "state": reason.state, "way": way}
    return {"kind": "stays", **asdict(reason)}


def _shape_of(rule: Rule) -> Message:
    name = rule.kind.neighborhood.name if isinstance(rule.kind, Table) else "Moore" if len(rule.places) > 5 else (
        "vonNeumann")
    return {"shape": SHAPES.get(name, name), "places": [PLACES[it] for it in rule.places]}


async def why(session: Session, message: Message) -> Message:
    """Where a cell has its state from; and why the rule gave it that, where the states around it are told."""
    document, place = session.document, Place(number(message, "branch"), natural(message, "generation"))
    origin = origin_of(document, place, (number(message, "x"), number(message, "y")))
    answer: Message = {"epoch": session.views.epoch, "origin": origin._asdict()}
    if message.get("around") is None:
        return answer
    around = message["around"]
    if not isinstance(around, list) or not all(isinstance(it, int) for it in around):
        raise Malformed("the states around a cell are a list of numbers")
    try:
        return {**answer, "reason": reason_of(document.rule, around)}
    except (Refused, Malformed) as fault:
        return {**answer, "fault": str(fault).partition("\n")[0]}
