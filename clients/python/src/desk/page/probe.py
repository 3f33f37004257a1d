"""Looks of the page's own, beside those of tabs: the text of a view at a place, waited for."""
from __future__ import annotations

from types import TracebackType
from typing import AsyncIterator, Dict, Optional, Sequence, Type

from ..errors import Trouble
from ..words import View, view_words

from .looks import Message, Tab
from .session import Session

MOST_TEXT = 1 << 30
CHANGED = "the experiment was changed meanwhile"
AHEAD = 16  # texts that are looked at before they are needed


class Probe:
    """A looker-on for a `with` block, at whose end it looks at nothing any more."""

    def __init__(self, session: Session, most_text: int = MOST_TEXT) -> None:
        """most_text: the most bytes of a text."""
        self._session, self._tab = session, Tab(most_text)

    def __enter__(self) -> Probe:
        self._session.views.tabs.append(self._tab)
        return self

    def __exit__(self, kind: Optional[Type[BaseException]], fault: Optional[BaseException],
                 trace: Optional[TracebackType]) -> None:
        self._session.views.tabs.remove(self._tab)
        self._session.wake()

    async def text(self, branch: int, generation: int, view: View) -> str:
        """The text of a view, as soon as it is known. Trouble: it is refused, or the patterns were changed before."""
        [text] = [it async for it in self.texts(branch, [generation], view)]
        return text

    async def texts(self, branch: int, generations: Sequence[int], view: View) -> AsyncIterator[str]:
        """The texts of a view at generations, in turn, each as soon as it is known. Trouble: as for `text`."""
        epoch, words = self._session.views.epoch, view_words(view)
        known: Dict[str, Message] = {}
        for place, generation in enumerate(generations):
            self._tab.look_at([[branch, it, words] for it in generations[place:place + AHEAD]])
            self._session.wake()
            while str(generation) not in known:
                message = await self._tab.outbox.get()
                if message["type"] in ("state", "look") and message["epoch"] != epoch:
                    raise Trouble(CHANGED)
                if message["type"] == "look" and message["view"] == words:
                    known[message["generation"]] = message
            if self._session.views.epoch != epoch:
                raise Trouble(CHANGED)
            yield _text_of(known.pop(str(generation)))


def _text_of(message: Message) -> str:
    if "refused" in message:
        refused = message["refused"]
        raise Trouble(str(refused["words"] if isinstance(refused, dict) else refused))
    return str(message["text"])
