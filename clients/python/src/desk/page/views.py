"""What tabs look at, as bookmarks of the page's own, which aren't in the document; and telling tabs what is known."""
from __future__ import annotations

import asyncio
from typing import Dict, Iterable, List, Set

from ..errors import Trouble
from ..refusals import refusal
from ..words import view_words

from .keeper import Keeper
from .looks import Held, Look, Tab, wanted_by
from .refusals import explained


class Views:
    """The looks of all tabs, and which bookmarks have texts.

    epoch: raised where patterns may be others than before, so that none of before is shown
    """

    def __init__(self, keeper: Keeper, turn: asyncio.Lock, wake: asyncio.Event) -> None:
        self.tabs: List[Tab] = []
        self.epoch = 0
        self._keeper, self._turn, self._wake = keeper, turn, wake
        self._held: Dict[Look, Held] = {}
        self._current: Set[int] = set()
        self._of = 0  # which program both are of

    @property
    def held(self) -> Dict[Look, Held]:
        """The bookmark of each look in the present program, or why it has none."""
        self._forget_others()
        return self._held

    @property
    def current(self) -> Set[int]:
        """The present program's ids of bookmarks whose texts are known."""
        self._forget_others()
        return self._current

    @current.setter
    def current(self, ids: Set[int]) -> None:
        self._forget_others()
        self._current = ids

    def _forget_others(self) -> None:
        """Forgets what an earlier program had."""
        if self._of != self._keeper.started:
            self._of, self._held, self._current = self._keeper.started, {}, set()

    async def look_away(self, branches: Iterable[int]) -> None:
        """Takes the views away that would hold branches that are to be removed."""
        gone = set(branches)
        for look in [it for it in self.held if it.branch in gone]:
            held = self.held.pop(look)
            if isinstance(held, int) and not self._keeper.is_lost:
                await self._keeper.ask(b"unmark %d\n" % held)

    def revise(self, has_other_patterns: bool) -> None:
        """The document was edited: what was refused may be no more, and patterns may be others."""
        for look in [it for it, held in self.held.items() if isinstance(held, Trouble)]:
            del self.held[look]
            for tab in self.tabs:
                tab.told.pop(look, None)
        if has_other_patterns:
            self.epoch += 1
            self.current = set()

    async def sync(self) -> bool:
        """Gives each look a bookmark, and takes those away that nobody looks at. Whether any was."""
        wanted = wanted_by(self.tabs)
        gone = [it for it in self.held if it not in wanted]
        for look in gone:
            async with self._turn:
                held = self.held.pop(look, None)
                if isinstance(held, int):
                    await self._keeper.ask(b"unmark %d\n" % held)
        new = [it for it in wanted if it not in self.held]
        for look in new:
            async with self._turn:
                if look not in self.held:
                    found = await self._hold(look)
                    self.held[look] = found
        return bool(gone or new)

    async def _hold(self, look: Look) -> Held:
        branch = self._keeper.names.branches.get(look.branch)
        if branch is None:
            return Trouble(f"there is no branch {look.branch}")
        on = f"on {branch} " if branch else ""
        reply = await self._keeper.ask(f"{on}mark {look.generation} {view_words(look.view)}\n".encode())
        return int(reply.words[3]) if reply.words[0] == "ok" else refusal(reply.words, None, "the picture")

    async def deliver(self) -> None:
        """Tells each tab what is known of what it looks at, and wasn't told."""
        for tab in list(self.tabs):
            for look in tab.looks:
                epoch, held = self.epoch, self.held.get(look)
                if tab.told.get(look) == epoch or held is None:
                    continue
                if isinstance(held, Trouble):
                    tab.told[look] = epoch
                    tab.say(look.message(epoch, refused=explained(held)))
                elif held in self.current:
                    await self._tell_text(tab, look, held)

    async def _tell_text(self, tab: Tab, look: Look, held: int) -> None:
        async with self._turn:
            if self.held.get(look) != held:
                return
            try:
                reply, epoch = await self._keeper.ask(b"peek %d\n" % held), self.epoch
            except Trouble:
                return self._wake.set()
        if reply.words[0] != "bookmark" or reply.words[2] != "current":
            return
        tab.told[look] = epoch
        if len(reply.text) > tab.most_text:
            why = Trouble(f"the text has {len(reply.text)} bytes, which is too much to draw")
            return tab.say(look.message(epoch, refused=explained(why)))
        tab.say(look.message(epoch, text=reply.text.decode("latin-1")))
