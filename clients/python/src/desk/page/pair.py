"""An experiment that may have a second rule: what each tab sees of it is of one session or the other.

There are two programs, with one document but for the rule. An edit goes to both, or to none where one refuses it, and
undoing it too. Each program is started again by itself where it is lost.
"""
from __future__ import annotations

import asyncio
from typing import Any, Dict, List, Optional, Tuple

from ..errors import Malformed, Trouble

from .autosave import Autosave
from .document import Document
from .looks import Message, Tab
from .program import Program
from .second import Second, named_as_second, under_second
from .session import Session
from .stamps import Shelf

# What tabs are told of the second rule alone.
OF_SECOND = ("rule", "ruleName", "colors", "names", "states", "pending", "cause", "isLost")


class Shadow(Tab):
    """What a tab looks at under the second rule."""

    def __init__(self, tab: Tab) -> None:
        super().__init__(tab.most_text)
        self._tab = tab

    def say(self, message: Message) -> None:
        """Hands texts on, and nothing else: of the state tabs are told by the first session."""
        if message["type"] == "look":
            self._tab.say({**message, "rule": 1})


class Pair(Session):
    """The session of the first rule, with the one of the second."""

    def __init__(self, words: List[str], autosave: Optional[Autosave] = None, shelf: Optional[Shelf] = None) -> None:
        super().__init__(words, autosave, shelf)
        self.second = Second(words, self.tell, self._tell_state)
        self._shadows: Dict[Tab, Shadow] = {}

    def under(self, message: Message) -> Session:
        """The session that a message is about, by its `rule`."""
        return self.second if message.get("rule") in (1, "1") else self

    def look(self, tab: Tab, given: Any) -> None:
        """Takes what a tab looks at from now on. A look of four parts says by the last one under which rule."""
        if not isinstance(given, list):
            raise Malformed("looks are a list")
        first, second = _parted(given)
        tab.look_at(first)
        if second and tab not in self._shadows:
            self._shadows[tab] = Shadow(tab)
            self.second.views.tabs.append(self._shadows[tab])
        if tab in self._shadows:
            self._shadows[tab].look_at(second)
        self.wake()
        self.second.wake()

    def leave(self, tab: Tab) -> None:
        """A tab was closed."""
        self.views.tabs.remove(tab)
        if tab in self._shadows:
            self.second.views.tabs.remove(self._shadows.pop(tab))
        self.wake()
        self.second.wake()

    async def watch(self) -> None:
        """Turn after turn of both, as long as the page is there."""
        await asyncio.gather(super().watch(), self.second.watch())

    async def close(self) -> None:
        """Saves what isn't saved, and ends both programs for good."""
        await self.second.close()
        await super().close()

    async def retry(self) -> None:
        """Tries once more what was given up under either rule."""
        await super().retry()
        await self.second.retry()

    async def replace(self, program: Program, document: Document) -> None:
        """Takes another program with its document, and then its second rule, if that isn't refused."""
        await super().replace(program, document._replace(second=None))
        try:
            async with self._turn:
                await self._become(self.document._replace(second=document.second))
        except Trouble as trouble:
            await self.second.follow(self.document)
            self.tell(f"The second rule isn't taken: {trouble}")
        self.publish()

    async def _become(self, new: Document, is_back: bool = False) -> None:
        old = self.document
        await super()._become(new, is_back)
        try:
            await self.second.follow(new, is_back)
        except Trouble as trouble:
            self.second.views.revise(True)  # tabs were told of the new document
            await super()._become(old, is_back=True)
            raise named_as_second(trouble, new) from trouble

    def state(self) -> Message:
        """The document and what is known of it under both rules. A bookmark is current where it is under both."""
        found, wanted = super().state(), under_second(self.document)
        if wanted is None:
            return {**found, "second": None}
        other = self.second.state()
        current = {it["id"] for it in other["bookmarks"] if it["isCurrent"]}
        marks = [{**it, "isCurrent": it["isCurrent"] and it["id"] in current} for it in found["bookmarks"]]
        # While the second one has other patterns still, tabs show none of them.
        is_behind = not self.second.document.same_patterns(wanted)
        second = {**{it: other[it] for it in OF_SECOND}, "epoch": other["epoch"] + is_behind}
        return {**found, "bookmarks": marks, "second": second}


def _parted(looks: List[Any]) -> Tuple[List[Any], List[Any]]:
    """The looks under the first rule and those under the second, each without its last part."""
    parts: Tuple[List[Any], List[Any]] = [], []
    for it in looks:
        is_whole = isinstance(it, list) and len(it) == 4
        parts[bool(is_whole and it[3])].append(it[:3] if is_whole else it)
    return parts
