"""What a tab asks for itself alone: what it runs until, and which lines fire."""
from __future__ import annotations

from typing import Awaitable, Callable, Dict, Optional

from ..errors import Trouble
from ..words import View, Window

from .edits import natural, number
from .line_counts import count_lines, end_count
from .looks import Message, Tab
from .probe import Probe
from .search import FARTHEST, Found, comes_again, goal_of, reach
from .session import Session


def search(session: Session, tab: Tab, message: Message) -> Message:
    """Begins to run until something is so. The tab is told how far it is, and what was found."""
    branch, start = number(message, "branch"), natural(message, "generation")
    last = min(natural(message, "last"), FARTHEST)
    if message.get("kind") == "again":
        _check_nothing_acts(session, branch, start)
        goal = None
    else:
        window = [int(it) for it in message.get("window") or ()]
        goal = goal_of(str(message.get("kind")), natural(message, "number"), Window(*window) if window else None)

    def tell(generation: int) -> None:
        tab.say({"type": "search", "looked": str(generation)})

    async def run() -> Optional[Found]:
        with Probe(session) as probe:
            async def at(generation: int, view: View) -> str:
                return await probe.text(branch, generation, view)

            return await (reach(goal, at, start, last, tell) if goal else comes_again(at, start, last, tell))

    tab.begin("search", _told(tab, run()))
    return {}


async def _told(tab: Tab, run: Awaitable[Optional[Found]]) -> None:
    """Tells the tab what came of a search."""
    try:
        tab.say({"type": "search", "found": _words_of(await run)})
    except Trouble as trouble:
        tab.say({"type": "search", "fault": str(trouble)})


def _words_of(found: Optional[Found]) -> Optional[Message]:
    """What was found, as a tab gets it: numbers are words."""
    return found and {"generation": str(found.generation), "period": str(found.period),
                      "shift": [str(it) for it in found.shift]}


def _check_nothing_acts(session: Session, branch: int, start: int) -> None:
    interventions = session.document.interventions.items()
    acting = [it for it, value in interventions if value.branch == branch and value.last > start]
    if acting:
        raise Trouble(f"intervention {acting[0]} acts after generation {start}, so nothing tells that the pattern "
                      "comes again; go to a later generation first")


def cancel(session: Session, tab: Tab, message: Message) -> Message:
    """Ends what the tab runs until."""
    tab.stop("search")
    return {}


OF_TABS: Dict[str, Callable[[Session, Tab, Message], Message]] = {
    "search": search, "cancel": cancel, "count_lines": count_lines, "end_count": end_count}
