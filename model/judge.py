"""Compares what the program replies to a script with what the definitions allow."""
from __future__ import annotations

import re
from dataclasses import dataclass, field
from typing import FrozenSet, Optional, Set

from commands import Peek, Plain, Show
from documents import Document
from replies import Ask, Known, Memory, Pending, Shortage, Still, Unsettled, answer, asked_by


# So many bytes more are told of what was found in place of a reply.
A_LINE = 40


@dataclass(frozen=True)
class Allowed:
    """What may be short: the causes for which a settling may leave bookmarks pending, and memory for commands."""

    causes: FrozenSet[int] = frozenset()
    memory: bool = False


NOTHING = Allowed()
SQUARES = Allowed(frozenset([71]))
MEMORY = Allowed(frozenset([70]), memory=True)
BOTH = Allowed(frozenset([70, 71]), memory=True)


class Difference(Exception):
    """Replies that the definitions don't allow."""


@dataclass
class Told:
    """What the replies since the last edit told of what is known. What was known once stays so until the next edit."""

    known: Set[int] = field(default_factory=set)
    most_pending: Optional[int] = None

    def may_be_pending(self, bookmark: int) -> bool:
        """Whether nothing that was told has it that the text of a bookmark is known."""
        return bookmark not in self.known and self.most_pending != 0

    def may_be_so_many(self, pending: int, document: Document) -> bool:
        """Whether nothing that was told has it that fewer bookmarks are pending."""
        fewer = self.most_pending is not None and pending > self.most_pending
        return not fewer and pending <= len(document.bookmarks) - len(self.known)

    def take(self, ask: Ask, shortage: Shortage, document: Document) -> None:
        """Takes what a reply tells, that told of a shortage or of none."""
        if ask in (Plain.SETTLE, Plain.POLL):
            self.most_pending = shortage.pending if isinstance(shortage, (Unsettled, Still)) else 0
        elif ask is Plain.LIST:
            self.known |= shortage.ids if isinstance(shortage, Known) else document.bookmarks.keys()
        elif isinstance(ask, (Show, Peek)) and shortage is None and ask.id in document.bookmarks:
            self.known.add(ask.id)


def judge(script: bytes, replies: bytes, allowed: Allowed = NOTHING) -> int:
    """How many replies told of a shortage. All others are what the definitions say, or Difference is raised.

    A command that found no memory changes nothing, so what follows it is judged by the document as it then is. How
    far the workers have come isn't counted as a shortage. The definitions allow any, and here it may not go back.
    """
    document, at, short_replies, told_before = Document(), 0, 0, Told()
    for ask in asked_by(script):
        shortage = _shortage_in(ask, replies, at, allowed)
        after = answer(document, ask, shortage)
        if not replies.startswith(after.told, at):
            found = replies[at : at + len(after.told) + A_LINE]
            raise Difference(f"{_shortened(ask)}: {_shortened(found)}, not {_shortened(after.told)}")
        _hold(ask, shortage, document, told_before)
        if after.document.revision != document.revision:
            told_before = Told()
        told_before.take(ask, shortage, document)
        document = after.document
        at += len(after.told)
        short_replies += _is_short(ask, shortage)
        if after.ends:
            break
    if at < len(replies):
        raise Difference(f"after all replies there is {_shortened(replies[at:])}")
    return short_replies


def _is_short(ask: Ask, shortage: Shortage) -> bool:
    """Whether memory or squares were short, and not just time."""
    if isinstance(shortage, Still):
        return shortage.cause is not None
    return isinstance(shortage, (Memory, Unsettled)) or isinstance(shortage, Pending) and isinstance(ask, Show)


def _hold(ask: Ask, shortage: Shortage, document: Document, told: Told) -> None:
    """Raises Difference where a bookmark is pending of which an earlier reply told that it isn't."""
    if isinstance(shortage, Pending) and isinstance(ask, (Show, Peek)):
        holds = told.may_be_pending(ask.id)
    elif isinstance(shortage, (Unsettled, Still)):
        holds = told.may_be_so_many(shortage.pending, document)
    elif isinstance(shortage, Known):
        pending = document.bookmarks.keys() - shortage.ids
        holds = all(map(told.may_be_pending, pending)) and told.may_be_so_many(len(pending), document)
    else:
        holds = True
    if not holds:
        raise Difference(f"{_shortened(ask)}: {shortage}, and before {told}")


def _shortage_in(ask: Ask, replies: bytes, at: int, allowed: Allowed) -> Shortage:
    """The shortage that the reply to what was asked tells of, if it may tell of one."""
    line = replies[at : replies.find(b"\n", at) + 1]
    if allowed.memory and line == b"refused 70 NoMemory\n":
        return Memory()
    if ask is Plain.LIST:
        return _known_in(replies, at)
    if (allowed.causes or isinstance(ask, Peek)) and re.fullmatch(rb"bookmark [0-9]+ pending\n", line):
        return Pending()
    unsettled = re.fullmatch(rb"unsettled ([0-9]+) ([0-9]+)\n", line)
    if unsettled and int(unsettled[2]) in allowed.causes:
        return Unsettled(int(unsettled[1]), int(unsettled[2]))
    polled = re.fullmatch(rb"polled ([0-9]+)(?: ([0-9]+))?\n", line)
    if polled and (polled[2] is None or int(polled[2]) in allowed.causes):
        return Still(int(polled[1]), None if polled[2] is None else int(polled[2]))
    return None


def _known_in(replies: bytes, at: int) -> Known:
    """The bookmarks that a list names as current."""
    end = re.compile(rb"(?m)^listed ").search(replies, at)
    lines = replies[at : end.start() if end else None]
    return Known(frozenset(int(it) for it in re.findall(rb"(?m)^bookmark ([0-9]+) on .* current$", lines)))


def _shortened(found: object) -> str:
    text = found if isinstance(found, str) else repr(found)
    return text if len(text) < 400 else f"{text[:300]} .. {text[-80:]}"
