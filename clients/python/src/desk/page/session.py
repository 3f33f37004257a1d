"""An experiment that is shown: its document with its past, the program that has it, and who looks on.

The program is only ever asked what it answers at once. What it computes meanwhile is collected by `poll`.
"""
from __future__ import annotations

import asyncio
import time
from typing import Callable, List, Optional

from ..errors import Ended, Trouble
from .autosave import EACH, Autosave, Left
from .document import Document
from .header_rules import other_rule, why_not
from .keeper import Keeper
from .looks import Message
from .program import Program
from .refusals import explained_cause
from .second_script import whole_script_of
from .stamps import Shelf
from .told import Known, told
from .views import Views

# Seconds between two polls: at first, at most, and after a cause was told. The next poll tries again what was given
# up, and tells no cause yet: for some more seconds the last one stays shown.
SOON, SELDOM, GIVEN_UP, STILL_SHOWN = 0.004, 0.05, 2.0, 0.5
MOST_UNDO = 200
KINDS = ("branches", "interventions", "bookmarks")
Edit = Callable[[Document], Document]


class Session:
    """One experiment, for all tabs of the page."""

    def __init__(self, words: List[str], autosave: Optional[Autosave] = None, shelf: Optional[Shelf] = None) -> None:
        """words: how the program is started. autosave: where the experiment is saved by itself, if at all. shelf: where
        stamps are, if anywhere.
        """
        self.shelf = shelf
        self._turn, self._wake = asyncio.Lock(), asyncio.Event()
        self.keeper = Keeper(words, self.wake, self.tell)
        self.views = Views(self.keeper, self._turn, self._wake)
        self.past: List[Document] = []
        self.future: List[Document] = []
        self.pending, self.cause = 0, 0
        self._is_given_up, self._told_at = False, 0.0
        self._shown: Message = {}
        self._revision, self._told_document = 0, self.document
        self._last_ids = dict.fromkeys(KINDS, 0)
        self._autosave = autosave
        self._saved = Document()  # what the user has by now
        self._left: Optional[Left] = None

    @property
    def document(self) -> Document:
        """What the experiment is now."""
        return self.keeper.document

    async def begin(self) -> None:
        """Starts the program."""
        await self.keeper.anew(Document())
        if self._autosave:
            self._autosave.begin()
            self._left = self._autosave.newest()

    async def close(self) -> None:
        """Saves what isn't saved, and ends the program for good: it isn't started again, and `watch` ends."""
        await self.keeper.close()
        if self._autosave:
            await self.save_by_itself()
            self._autosave.end()

    @property
    def is_saved(self) -> bool:
        """Whether the user has the experiment as it is, in files."""
        return self.document == self._saved

    def now_saved(self) -> None:
        """The user has the experiment now."""
        self._saved = self.document
        self._tell_state()

    async def save_by_itself(self) -> None:
        """Saves the experiment now, where the user hasn't."""
        if self._autosave:
            await self._autosave.sync(self.document, self.is_saved)

    async def keep_saving(self) -> None:
        """Saves the experiment by itself, as long as the page is there."""
        while self._autosave:
            await asyncio.sleep(EACH)
            await self.save_by_itself()
            if self._autosave.fault:
                return self.tell(self._autosave.fault)

    def new_id(self, kind: str) -> int:
        """An id that none of its kind had before."""
        self._last_ids[kind] += 1
        return self._last_ids[kind]

    # What tabs ask for.

    async def edit(self, make: Edit) -> None:
        """Changes the document. A refusal is raised, and then nothing is changed."""
        async with self._turn:
            old = self.document
            await self._become(make(old))
            self.past, self.future = [*self.past[-MOST_UNDO:], old], []
        self.publish()

    async def undo(self) -> None:
        """Goes back to the document before the last edit."""
        await self._go(self.past, self.future, "nothing to undo")

    async def redo(self) -> None:
        """Takes the last undoing back."""
        await self._go(self.future, self.past, "nothing to redo")

    async def _go(self, back: List[Document], forth: List[Document], nothing: str) -> None:
        async with self._turn:
            if not back:
                raise Trouble(nothing)
            old = self.document
            await self._become(back[-1], is_back=True)
            back.pop()
            forth.append(old)
        self.publish()

    async def _become(self, new: Document, is_back: bool = False) -> None:
        old = self.document
        await self.views.look_away([it for it, value in old.branches.items() if new.branches.get(it) != value])
        await self.keeper.become(new, is_back)
        self.views.revise(not new.same_patterns(old))

    async def replace(self, program: Program, document: Document) -> None:
        """Takes another program with its document, whose ids are the program's own."""
        async with self._turn:
            old = self.document
            await self.keeper.end()
            self.keeper.take(program, document)
            self.past, self.future = [*self.past[-MOST_UNDO:], old], []
            self.views.revise(True)
            for kind in KINDS:
                self._last_ids[kind] = max(self._last_ids[kind], *getattr(document, kind), 0)
        self.publish()

    async def reopen(self, name: str) -> bytes:
        """The script of an experiment that was left, which is saved anew from now on."""
        if self._autosave is None:
            raise Trouble("no experiments are saved here")
        return await asyncio.to_thread(self._autosave.read, name)

    def discard(self, name: str) -> None:
        """Removes an experiment that was left."""
        if self._autosave:
            self._autosave.discard(name)
            self._left = self._autosave.newest()
        self._tell_state()

    def script(self) -> bytes:
        """The experiment as a script."""
        return whole_script_of(self.document)

    async def retry(self) -> None:
        """Tries once more what was given up, also a program that was lost too often."""
        self.cause = 0
        async with self._turn:
            await self.keeper.retry()
        self.wake()

    def publish(self) -> None:
        """Tells the tabs of an edit, before they get its reply, so that none shows what was before."""
        self.cause = 0
        self._tell_state()
        self.wake()

    def wake(self) -> None:
        """Something changed: the next turn comes at once."""
        self._wake.set()

    # Turns: what is computed is collected, and the tabs are told.

    async def watch(self) -> None:
        """Turn after turn, as long as the page is there."""
        pause = SOON
        while not self.keeper.is_closed:
            is_new = self._wake.is_set()
            self._wake.clear()
            try:
                news = await self._collect(is_new)
            except Ended as ended:
                await self._mend(ended)
                continue
            except Trouble:
                news = False
            if news or is_new:
                self._tell_state()
            if self.keeper.is_due(is_current=not self.pending):
                await self._renew()
            await self.views.deliver()
            pause = SOON if news or is_new else GIVEN_UP if self._is_given_up else min(2 * pause, SELDOM)
            try:
                await asyncio.wait_for(self._wake.wait(), pause if self.pending else None)
            except asyncio.TimeoutError:
                pass

    async def _mend(self, why: Ended) -> None:
        """Starts the program that ended again."""
        async with self._turn:
            await self.keeper.mend(why)
            self.pending = 0
        self._tell_state()
        self.wake()

    async def _renew(self) -> None:
        """Starts a program that has grown anew. Tabs keep their pictures, since the document is the same."""
        async with self._turn:
            size = self.keeper.size
            try:
                await self.keeper.anew(self.document)
            except Trouble:
                return self.wake()  # the next turn sees to a lost program
        self.say(f"The program had taken {size / 1e9:.1f} GB of memory, so it was started again from the script.")

    async def _collect(self, is_new: bool) -> bool:
        """Polls, and looks what is current where that may have changed. Whether it has."""
        changed = await self.views.sync()
        async with self._turn:
            words = (await self.keeper.ask(b"poll\n")).words
            pending, before = int(words[1]), (self.pending, self.cause)
            self._take_cause(pending, int(words[2]) if len(words) > 2 else 0)
            if not changed and not is_new and (pending, self.cause) == before:
                return False
            lines = (await self.keeper.ask(b"list\n")).lines
            self.pending = pending
            self.views.current = {int(it[1]) for it in lines if it[0] == "bookmark" and it[-1] == "current"}
        return True

    def _take_cause(self, pending: int, told: int) -> None:
        """Keeps why something is pending, also while it is tried again for a moment."""
        self._is_given_up, now = bool(told), time.monotonic()
        if told:
            self.cause, self._told_at = told, now
        elif not pending or now - self._told_at > GIVEN_UP + STILL_SHOWN:
            self.cause = 0

    def _tell_state(self) -> None:
        if self.document is not self._told_document:
            self._told_document = self.document
            self._revision += 1
        state = self.state()
        if state != self._shown:
            self._shown = state
            for tab in self.views.tabs:
                tab.say(state)

    def say(self, words: str) -> None:
        """Says something to all tabs for a while."""
        for tab in self.views.tabs:
            tab.say({"type": "said", "words": words})

    def tell(self, words: str) -> None:
        """Tells all tabs what a user has to know."""
        for tab in self.views.tabs:
            tab.say({"type": "word", "words": words})

    def state(self) -> Message:
        """The document and what is known of it, as tabs get it."""
        document, ids, left = self.document, self.keeper.names.bookmarks, self._left
        bookmarks = {it: ids.get(it) in self.views.current for it in document.bookmarks}
        cause = explained_cause(self.cause) if self.cause else None
        return {**told(document, Known(bookmarks, self.pending, cause, self.keeper.is_lost)), "epoch": self.views.epoch,
                "undo": len(self.past), "redo": len(self.future), "named": self._named(),
                "left": left and left._asdict(), "isSaved": self.is_saved, "revision": self._revision}

    def _named(self) -> Optional[Message]:
        """The rule that the start's header names, where it is another one than the rule in use."""
        name = other_rule(self.document.rule, self.document.start)
        return {"rule": name, "whyNot": why_not(name)} if name else None
