"""A task of a sweep: some cases, one after the other in one program, and what comes of each."""
from __future__ import annotations

import time
from typing import Any, Callable, Dict, List, Optional, Tuple

from ..client import Desk
from ..errors import Ended, Malformed, Pending, Refused, TimedOut, Trouble
from .outcome import Outcome, Show
from .programs import Settings, Used, programs
from .time_limit import TimeLimit

Build = Callable[[Desk, Any], Any]
PENDING = {
    70: ("out of memory", "memory ran out in a step or a text"),
    71: ("out of squares", "a step needs more squares than a worker may keep"),
}


def outcomes(build: Build, cases: List[Any], settings: Settings) -> List[Outcome]:
    """The outcomes of some cases, one after the other in one program as long as it is well. It is a task's function."""
    mine = programs()
    found: List[Outcome] = []
    used: Optional[Used] = None
    try:
        for case in cases:
            if mine.is_ended(settings.sweep):
                break
            used = used or mine.taken(settings)
            was_used = used.cases > 0
            outcome, is_well = _tried(build, case, used, settings)
            if outcome.cause in ("out of squares", "out of memory", "pending") and was_used:
                # What it kept of other cases may be what it lacks room for.
                mine.dropped(settings, used)
                used = mine.opened(settings)
                outcome, is_well = _tried(build, case, used, settings)
            if not is_well or used.is_spent():
                mine.dropped(settings, used)
                used = None
            found.append(outcome)
        if used:
            mine.given_back(settings, used)
        return found
    except BaseException:
        if used:
            mine.dropped(settings, used)
        raise


def _tried(build: Build, case: Any, used: Used, settings: Settings) -> Tuple[Outcome, bool]:
    """What comes of a case in a program, and whether that can be used on."""
    began = time.monotonic()
    used.cases += 1
    until = None if settings.limit is None else began + settings.limit
    cause, why, value = "", "", None
    desk = used.retelling.begin()
    with TimeLimit(desk.close, settings.limit) as time_limit:
        try:
            value = _shown(desk, build(desk, case), until)
        except TimedOut as trouble:
            cause, why = "out of time", str(trouble)
        except Trouble as trouble:
            cause, why = _cause(desk, trouble)
    is_well = not time_limit.is_over and cause in ("", "refused", "malformed", "out of squares", "out of time")
    if time_limit.is_over or cause and until is not None and time.monotonic() >= until:
        cause, why, value = "out of time", f"it took longer than {settings.limit:g} s", None
    return Outcome(case, value, cause, why, time.monotonic() - began), is_well


def _cause(desk: Desk, trouble: Trouble) -> Tuple[str, str]:
    """Why a case failed, in a word or two and as a sentence."""
    if isinstance(trouble, Pending):
        try:
            number = desk.settle().cause or 0
        except Trouble as ended:
            return _cause(desk, ended)
        return PENDING.get(number, ("pending", f"a bookmark is pending, for the cause {number}"))
    if isinstance(trouble, Refused):
        return "out of memory" if trouble.name == "NoMemory" else "refused", trouble.brief
    if isinstance(trouble, Malformed):
        return "malformed", str(trouble)
    return "ended" if isinstance(trouble, Ended) else "trouble", str(trouble)


def _shown(desk: Desk, wanted: Any, until: Optional[float]) -> Any:
    """What `build` gave, with what each Show in it shows. All of them are marked before the first is computed.

    Up to a moment that is given the desk polls, and then leaves what it was at, so that its program serves on.
    """
    marks: Dict[int, int] = {}

    def mark(it: Any) -> None:
        if isinstance(it, Show):
            if id(it) not in marks:
                marks[id(it)] = desk.mark(it.generation, it.view, it.on)
        elif type(it) in (list, tuple, dict):
            for part in it.values() if isinstance(it, dict) else it:
                mark(part)

    def show(it: Any) -> Any:
        if isinstance(it, Show):
            return desk.show(marks[id(it)], None if until is None else max(0.0, until - time.monotonic()))
        if type(it) in (list, tuple):
            return type(it)(map(show, it))
        return {key: show(part) for key, part in it.items()} if type(it) is dict else it

    mark(wanted)
    return show(wanted) if marks else wanted
