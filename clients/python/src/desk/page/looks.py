"""What the tabs of a page look at: views of their own, which aren't of the document."""
from __future__ import annotations

import asyncio
from typing import Any, Coroutine, Dict, Iterable, List, NamedTuple, Tuple, Union

from ..errors import Malformed, Trouble
from ..words import View, Window, checked_view, view_words

# The most looks of a tab, and the most bytes of a text that is sent to it.
MOST_LOOKS, MOST_TEXT = 300, 8 << 20
Message = Dict[str, Any]  # as JSON has it


class Look(NamedTuple):
    """A view at a generation of a branch, by the page's id of it."""

    branch: int
    generation: int
    view: View

    def message(self, epoch: int, **more: object) -> Message:
        """What a tab is told of it. Numbers are words, since JavaScript rounds large ones."""
        return {"type": "look", "branch": self.branch, "generation": str(self.generation),
                "view": view_words(self.view), "epoch": epoch, **more}


class Tab:
    """An open page: what it looks at, what of that it was told, and what is to be sent to it."""

    def __init__(self, most_text: int = MOST_TEXT) -> None:
        """most_text: the most bytes of a text that it is told."""
        self.most_text = most_text
        self.looks: Tuple[Look, ...] = ()
        self.told: Dict[Look, int] = {}  # the epoch of what it was told last
        self.outbox: asyncio.Queue[Message] = asyncio.Queue()
        self._tasks: Dict[str, asyncio.Task[None]] = {}  # what it has asked for and is under way, each of a kind

    def say(self, message: Message) -> None:
        """Puts a message where the tab's own task sends it, so that a slow tab holds nobody up."""
        self.outbox.put_nowait(message)

    def begin(self, kind: str, work: Coroutine[Any, Any, None]) -> None:
        """Begins some work for it, in place of what is under way of that kind."""
        self.stop(kind)
        self._tasks[kind] = asyncio.create_task(work)

    def stop(self, kind: str) -> None:
        """Ends what is under way of a kind, if anything is."""
        task = self._tasks.pop(kind, None)
        if task:
            task.cancel()

    def close(self) -> None:
        """Ends all that is under way for it."""
        for kind in list(self._tasks):
            self.stop(kind)

    def look_at(self, given: Any) -> None:
        """Takes what it looks at from now on, most wanted first."""
        self.looks = tuple(dict.fromkeys(_look(it) for it in _listed(given)))
        self.told = {it: epoch for it, epoch in self.told.items() if it in self.looks}


def _listed(given: Any) -> List[Any]:
    if not isinstance(given, list) or len(given) > MOST_LOOKS:
        raise Malformed(f"looks are a list of at most {MOST_LOOKS}")
    return given


def _look(given: Any) -> Look:
    try:
        branch, generation, view = given
        words = view.split()
        found = Window(*map(int, words[1:])) if words[0] == "window" else words[0]
        return Look(int(branch), int(generation), checked_view(found))
    except (TypeError, ValueError, AttributeError, IndexError) as fault:
        raise Malformed(f"that is no look: {fault}") from None


def wanted_by(tabs: Iterable[Tab]) -> Dict[Look, None]:
    """All looks of all tabs, each once."""
    return dict.fromkeys(look for tab in tabs for look in tab.looks)


Held = Union[int, Trouble]  # the program's id of a look's bookmark, or why it has none
