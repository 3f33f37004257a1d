"""What an experiment is under its second rule: a session of its own, whose program has the same but for the rule."""
from __future__ import annotations

from typing import Callable, List, Optional

from ..errors import Refused, Trouble

from .document import Document, Names
from .session import Session


def under_second(document: Document) -> Optional[Document]:
    """The document with its second rule in place of its rule, or None where it has none."""
    return document._replace(rule=document.second, second=None) if document.second else None


def named_as_second(trouble: Trouble, document: Document) -> Trouble:
    """What the program with the second rule refused, which says so."""
    name = document.second.name if document.second else ""
    if not isinstance(trouble, Refused):
        return Trouble(f"under the second rule {name}: {trouble}")
    of = name if trouble.of == name else f"{trouble.of} under the second rule {name}"
    return Refused(trouble.number, trouble.name, trouble.place, trouble.told, of, trouble.line)


class Second(Session):
    """It follows the document of the first session, and nobody else edits it."""

    def __init__(self, words: List[str], tell: Callable[[str], None], changed: Callable[[], None]) -> None:
        """tell: called with what a user has to know. changed: called when something else is known."""
        super().__init__(words)
        self._say_first, self._changed = tell, changed

    async def follow(self, document: Document, is_back: bool = False) -> None:
        """Takes what a document is under its second rule; where it has none, there is no program.

        is_back: the program had this document before. Trouble: nothing is changed.
        """
        wanted = under_second(document)
        if wanted is None and self.document == Document():
            return
        async with self._turn:
            if wanted is None:
                await self._drop()
            elif self.keeper.program or self.keeper.is_lost:
                await self._become(wanted, is_back)
            else:
                await self._begin(wanted)
        self.publish()

    async def retry(self) -> None:
        """Tries once more what was given up, where there is a second rule."""
        if self.document.rule:
            await super().retry()

    async def _begin(self, document: Document) -> None:
        try:
            await self.keeper.anew(document)
        except Trouble:
            await self._drop()
            raise
        self.views.revise(True)

    async def _drop(self) -> None:
        await self.keeper.end()
        self.keeper.document, self.keeper.names, self.keeper.is_lost = Document(), Names(), False
        self.pending = self.cause = 0
        self.views.revise(True)

    def tell(self, words: str) -> None:
        """Tells all tabs what a user has to know."""
        self._say_first(f"Under the second rule: {words}")

    def say(self, words: str) -> None:
        """Says something to all tabs."""
        self.tell(words)

    def _tell_state(self) -> None:
        super()._tell_state()
        self._changed()
