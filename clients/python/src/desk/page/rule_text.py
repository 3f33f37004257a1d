"""The rule as text: what a tab gets of it to be edited, and a text that was typed, which is one edit."""
from __future__ import annotations

from typing import Dict

from ..errors import Malformed, Trouble
from ..formats.header import rule_named_by

from .document import Document, File
from .fitting import fitted
from .looks import Message
from .opening import offers
from .refusals import explained
from .rule_id import rule_id
from .session import Session


def decoded(data: bytes) -> str:
    """A rule's text to be edited. Lines end by a line feed alone."""
    try:
        text = data.decode()
    except UnicodeDecodeError:
        text = data.decode("latin-1")
    return text.replace("\r\n", "\n")


def encoded(text: str, old: bytes) -> bytes:
    """The bytes of an edited text: as they were where it says the same, and else encoded as the old one."""
    if text == decoded(old):
        return old
    try:
        old.decode()
    except UnicodeDecodeError:
        if all(ord(it) < 256 for it in text):
            return text.encode("latin-1")
    return text.encode(errors="replace")


async def rule_text(session: Session, message: Message) -> Dict[str, object]:
    """The text of the rule in use."""
    rule = session.document.rule
    return {"id": rule_id(rule), "text": decoded(rule.text) if rule else ""}


async def take_rule_text(session: Session, message: Message) -> Dict[str, object]:
    """Takes a rule's text as it was typed, and offers what else can be done where the start has too many states."""
    text, fit = message.get("text"), str(message.get("fit", ""))
    if not isinstance(text, str):
        raise Malformed("a rule's text has to be a text")
    data = encoded(text, session.document.rule.text if session.document.rule else b"")
    rule = File("rule", session.document.rule.name if session.document.rule else named(data), data)

    def make(old: Document) -> Document:
        return fitted(old._replace(rule=rule), fit)

    try:
        if rule != session.document.rule:
            await session.edit(make)
    except Trouble as trouble:
        return {"refused": explained(trouble), "offers": offers(trouble)}
    return {"id": rule_id(rule)}


def named(text: bytes) -> str:
    """The name of the file of a rule that was typed."""
    return f"{rule_named_by(text) or 'new'}.rule"
