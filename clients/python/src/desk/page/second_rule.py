"""What a tab asks for about the second rule: to take one, or to drop it."""
from __future__ import annotations

import asyncio

from ..errors import Malformed, Trouble

from .document import File
from .fitting import fitted
from .header_rules import rule_of_name
from .looks import Message
from .opening import offers
from .refusals import explained
from .session import Session


async def take_second(session: Session, message: Message) -> Message:
    """Takes a second rule: as a text, by its name, or where both are empty the rule that is in use."""
    try:
        rule = await asyncio.to_thread(_rule_of, session, str(message.get("name", "")), str(message.get("text", "")))
        await session.edit(lambda it: fitted(it._replace(second=rule), str(message.get("fit", ""))))
    except Trouble as trouble:
        return {"refused": explained(trouble), "offers": offers(trouble)}
    return {}


async def drop_second(session: Session, message: Message) -> Message:
    """Drops the second rule."""
    await session.edit(lambda it: it._replace(second=None))
    return {}


def _rule_of(session: Session, name: str, text: str) -> File:
    if text.strip():
        return File("rule", name or "text", text.encode())
    if name.strip():
        return rule_of_name(name.strip())
    if session.document.rule is None:
        raise Malformed("no rule is in use that could be taken as the second one")
    return session.document.rule
