"""The program that has the document: it is given another one by steps, and is started again where it is lost."""
from __future__ import annotations

import time
from typing import Callable, List, Optional

from ..errors import Ended, Refused, Trouble
from ..refusals import refusal

from .document import Document, Names, Step, difference
from .program import Program, Reply

# A program that is lost so often within so many seconds isn't started again by itself.
MOST_LOSSES, LOSSES_WITHIN = 3, 60.0
# The patterns of old edits stay in a program's memory. Beyond so many bytes it is started anew while all is current,
# and beyond MOST_AT_WORK by the next edit of patterns; but not where the document itself takes more than half of it.
MOST_MEMORY, MOST_AT_WORK = 1 << 30, 5 << 28
# Beyond so many it is started anew also while something is pending and nothing is edited, as where somebody looks at
# one generation after another. What is pending may need them: so each further time it may take twice as many.
MOST_AT_ALL = 3 << 30
TOO_OFTEN = "again and again. It isn't started any more before `Try again`; undo an edit first."


class Keeper:
    """Keeps a program with a document. Whoever calls sees to it that there is one call at a time.

    document: what the program has, or is given when it is started
    started: how many programs there were; what was asked of an earlier one is of no use any more
    is_lost: whether there is no program, since it was lost too often
    is_closed: whether there is none any more, and none will be
    """

    def __init__(self, words: List[str], wake: Callable[[], None], tell: Callable[[str], None]) -> None:
        """words: how a program is started. wake: called where it ends. tell: called with what a user has to know."""
        self.words, self._wake, self._tell = words, wake, tell
        self.document, self.names = Document(), Names()
        self.program: Optional[Program] = None
        self.started = 0
        self.is_lost = self.is_closed = False
        self._needed = 0  # bytes that it took when all was current for the first time
        self._given_up = 0  # bytes that it took when it was last started anew while something was pending
        self._losses: List[float] = []

    @property
    def size(self) -> int:
        """How many bytes of memory the program takes, or 0 where that isn't known."""
        return self.program.memory if self.program else 0

    def has_grown(self, is_current: bool) -> bool:
        """Whether the program takes so much memory that it has to be started anew. is_current: nothing is pending."""
        size = self.size
        if is_current and not self._needed:
            self._needed = size
        return size > max(MOST_MEMORY if is_current else MOST_AT_WORK, 2 * self._needed)

    def is_due(self, is_current: bool) -> bool:
        """Whether it is to be started anew now, though nothing is edited. is_current: nothing is pending."""
        if is_current:
            self._given_up = 0
            return self.has_grown(is_current)
        if self.size <= max(MOST_AT_ALL, 2 * self._needed, 2 * self._given_up):
            return False
        self._given_up = self.size
        return True

    async def ask(self, sent: bytes) -> Reply:
        """Sends a command. Trouble: there is no program; Ended: it ended meanwhile."""
        if self.program is None:
            raise Trouble("the program was lost too often; `Try again` starts it")
        return await self.program.ask(sent)

    async def become(self, new: Document, is_back: bool = False) -> None:
        """Gives the program another document. Where it is lost meanwhile, it is started with the new one.

        is_back: the program had this document before. Refused, or another Trouble: nothing is changed.
        """
        old = self.document
        try:
            await self._by_steps(old, new, is_back)
        except Ended as ended:
            await self._again(ended, old, new)

    async def _by_steps(self, old: Document, new: Document, is_back: bool) -> None:
        steps = _steps(old, new)
        is_large = not new.same_patterns(old) and self.has_grown(is_current=False)
        if steps is None or self.program is None or is_large:
            return await self._anew_or_back(new, old)
        for place, step in enumerate(steps):
            try:
                await self._do(step)
            except Refused:
                if is_back:
                    return await self.anew(new)
                if place:
                    await self.anew(old)
                raise
        self.document = new

    async def _anew_or_back(self, new: Document, old: Document) -> None:
        try:
            await self.anew(new)
        except Refused:
            await self.anew(old)
            raise

    async def _do(self, step: Step) -> None:
        reply = await self.ask(self.names.sent(step))
        if reply.words[0] == "refused":
            text, name = getattr(step.value, "text", None), getattr(step.value, "name", "")
            raise refusal(reply.words, text, name or f"`{step.what}`")
        if len(reply.words) > 3:
            self.names.learn(step, int(reply.words[3]))

    async def begin(self) -> Program:
        """Starts a program that has no document yet."""
        return await Program.begin(self.words, self._wake)

    async def anew(self, document: Document) -> None:
        """Ends the program, and starts another one with a document. Before it has all of that, the one from before
        stays what is shown and saved.
        """
        await self.end()
        program = await self.begin()
        if self.is_closed:
            await program.end()
            raise Trouble("the experiment is closed")
        self._take(program, Names())
        try:
            for step in difference(Document(), document):
                await self._do(step)
        except Refused:
            await program.end()  # nobody is to take it for one that has a document
            raise
        self.document = document
        self._wake()

    def take(self, program: Program, document: Document) -> None:
        """Takes a running program that has a document, whose ids are the program's own."""
        self._take(program, Names.of(document))
        self.document = document

    def _take(self, program: Program, names: Names) -> None:
        self.program, self.names = program, names
        self.started += 1
        self._needed = 0
        self.is_lost = False

    async def mend(self, why: Ended) -> None:
        """Starts a program that ended again, with the document as it is, and says so."""
        if not self.is_closed and self.program and self.program.has_ended:  # else whoever met it first has seen to it
            await self._again(why, self.document, self.document)

    async def retry(self) -> None:
        """Starts the program, where there is none, however often it was lost."""
        self._losses = []
        if self.program is None:
            await self.anew(self.document)

    async def _again(self, why: Ended, old: Document, new: Document) -> None:
        """Starts a program that was lost with the new document, or with the old one where it ends of the new one."""
        now = time.monotonic()
        self._losses = [it for it in self._losses if now - it < LOSSES_WITHIN] + [now]
        if len(self._losses) > MOST_LOSSES:
            return await self._give_up(old, f"{why}, {TOO_OFTEN}", new)
        try:
            await self.anew(new)
        except Ended as ended:
            await self._again(ended, old, old)
            if new is not old:
                raise Trouble(f"{ended}; the edit wasn't done") from ended
        except Refused as refused:
            if new is old:
                return await self._give_up(old, f"{why}, and couldn't be started again: {refused}", new)
            await self.anew(old)
            raise
        except Trouble as trouble:
            await self._give_up(old, f"{why}, and couldn't be started again: {trouble}", new)
        else:
            self._tell(f"{why}. It was started again from the saved script, with all edits.")

    async def _give_up(self, old: Document, words: str, new: Document) -> None:
        """Goes on without a program, and says why."""
        await self.end()
        self.document, self.is_lost = old, True
        self._tell(words)
        if new is not old:
            raise Trouble(f"{words} The edit wasn't done.")

    async def close(self) -> None:
        """Ends the program for good: none is started any more."""
        self.is_closed = True
        self._wake()
        await self.end()

    async def end(self) -> None:
        """Ends the program, whatever it is at."""
        program, self.program = self.program, None
        if program:
            await program.end()


def _steps(old: Document, new: Document) -> Optional[List[Step]]:
    """The steps from one document to another, or None where there are none."""
    try:
        return difference(old, new)
    except Trouble:
        return None
