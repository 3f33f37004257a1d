"""The replies to a script."""
from __future__ import annotations

from dataclasses import dataclass
from typing import FrozenSet, Iterator, List, NamedTuple, Optional, Union

import macrocells
import rle
from command_list import command_list
from commands import Command, Format, NotACommand, Peek, Plain, Show, command_of, format_of
from documents import Document
from edits import Edit, ReplaceRule, ReplaceStart, changed
from history import shown_by
from listing import listed
from refusals import Fault, Refused
from rule_files import rule_of
from scripted import scripted
from texts import lines_of, words_of


@dataclass(frozen=True)
class Text:
    """A command that a text follows, with the text."""

    format: Format
    text: bytes


# What a script asks for: a command, to take a text, or to refuse a line.
Ask = Union[Command, Text, Refused]


@dataclass(frozen=True)
class Memory:
    """Memory ran out for what was asked."""


@dataclass(frozen=True)
class Unsettled:
    """A settling left so many bookmarks pending, for this cause."""

    pending: int
    cause: int


@dataclass(frozen=True)
class Pending:
    """A bookmark that was to be shown is pending."""


@dataclass(frozen=True)
class Still:
    """So many bookmarks are pending after a poll, which met this cause, if it met one."""

    pending: int
    cause: Optional[int] = None


@dataclass(frozen=True)
class Known:
    """Of the bookmarks that were listed the texts of these alone are known."""

    ids: FrozenSet[int]


# What was short when something was asked, if something was.
Shortage = Union[None, Memory, Unsettled, Pending, Still, Known]


class After(NamedTuple):
    """What is replied, the document behind it, and whether the script ends."""

    told: bytes
    document: Document
    ends: bool = False


def replies_to(script: bytes) -> Iterator[bytes]:
    """The replies to a script for which nothing is short."""
    document = Document()
    for ask in asked_by(script):
        told, document, ends = answer(document, ask)
        yield told
        if ends:
            return


def asked_by(script: bytes) -> Iterator[Ask]:
    """What the lines of a script ask for, one thing after another."""
    lines = enumerate(lines_of(script), 1)
    for number, line in lines:
        if not line.says or line.says.startswith(b"#"):
            continue
        form = format_of(line.says)
        if form is None:
            yield _command_at(number, line.says)
            continue
        raw: List[bytes] = []
        for _, inner in lines:
            if words_of(inner.says) == [b"end"]:
                yield Text(form, b"".join(raw))
                break
            raw.append(inner.raw)
        else:
            yield Refused(Fault.NoEnd, number)


def _command_at(number: int, line: bytes) -> Ask:
    try:
        return command_of(line)
    except NotACommand:
        return Refused(Fault.BadCommand, number)


def answer(document: Document, ask: Ask, short: Shortage = None) -> After:
    """What is replied to what is asked. A shortage that can't stand against it counts as none."""
    if isinstance(ask, Plain):
        return _plain(document, ask, short)
    if isinstance(short, Memory) and not (isinstance(ask, Refused) and ask.fault is Fault.NoEnd):
        return After(Refused(Fault.NoMemory).told(), document)
    try:
        if isinstance(ask, Refused):
            raise ask
        if isinstance(ask, Text):
            return _taken(document, ask)
        if isinstance(ask, (Show, Peek)):
            return After(_shown(document, ask.id, isinstance(short, Pending)), document)
        return _edited(document, ask)
    except Refused as refused:
        return After(refused.told(), document)


def _plain(document: Document, ask: Plain, short: Shortage) -> After:
    if ask is Plain.QUIT:
        return After(b"bye\n", document, ends=True)
    if ask is Plain.WORK:
        return After(b"working\n", document)
    if ask is Plain.HELP:
        return After(b"help %d\n" % len(command_list()) + command_list(), document)
    if ask is Plain.SCRIPT:
        return After(Refused(Fault.NoMemory).told() if isinstance(short, Memory) else scripted(document), document)
    if ask is Plain.LIST:
        known = short.ids if isinstance(short, Known) else document.bookmarks.keys()
        return After(listed(document, known), document)
    if ask is Plain.POLL:
        return After(_polled(document, short), document)
    if isinstance(short, Unsettled) and 1 <= short.pending <= len(document.bookmarks):
        return After(b"unsettled %d %d\n" % (short.pending, short.cause), document)
    return After(b"settled\n", document)


def _polled(document: Document, short: Shortage) -> bytes:
    if not isinstance(short, Still) or short.pending > len(document.bookmarks):
        return b"polled 0\n"
    return b"polled %d" % short.pending + (b"" if short.cause is None else b" %d" % short.cause) + b"\n"


def _taken(document: Document, ask: Text) -> After:
    """What comes of a text: the rule or the start that it means."""
    if ask.format is Format.RULE:
        return _edited(document, ReplaceRule(rule_of(ask.text)))
    read = rle.pattern_of if ask.format is Format.RLE else macrocells.pattern_of
    pattern = read(ask.text)
    return _edited(document, ReplaceStart(pattern.world), f" gen {pattern.generation}")


def _edited(document: Document, edit: Edit, behind: str = "") -> After:
    after, added = changed(document, edit)
    number: Optional[str] = f" {edit.added} {added}" if edit.added else behind
    return After(f"ok {after.revision}{number}\n".encode(), after)


def _shown(document: Document, id_: int, is_pending: bool) -> bytes:
    if id_ not in document.bookmarks:
        raise Refused(Fault.NoSuchBookmark)
    if is_pending:
        return b"bookmark %d pending\n" % id_
    text = shown_by(document, document.bookmarks[id_])
    return b"bookmark %d current %d\n" % (id_, len(text)) + text
