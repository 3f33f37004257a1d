"""What a tab may ask for, each as a function of the session and of the message."""
from __future__ import annotations

import asyncio
from typing import Awaitable, Callable, Dict, List, Mapping, Tuple, TypeVar

from ..errors import Malformed, Trouble
from ..words import Cell, Window, checked_view

from .document import Bookmark, Branch, Document
from .looks import Message
from .opening import offers, open_script, take_rule
from .painting import Place, painted, repeating
from .refusals import explained
from .rule_text import rule_text, take_rule_text
from .script import without
from .session import Session

Answer = Awaitable[Dict[str, object]]
Kind = TypeVar("Kind")


def number(message: Message, name: str) -> int:
    """An integer of a message, which may be spelled as a word."""
    try:
        found = message[name]
        if isinstance(found, (int, str)) and not isinstance(found, bool):
            return int(found)
    except (KeyError, ValueError):
        pass
    raise Malformed(f"{name} has to be an integer")


def natural(message: Message, name: str) -> int:
    """An integer that isn't negative."""
    found = number(message, name)
    if found < 0:
        raise Malformed(f"{name} is {found}, and can't be negative")
    return found


def cells_of(message: Message) -> Tuple[Cell, ...]:
    """The cells of a message, the last mention of each."""
    try:
        found = {(int(x), int(y)): int(state) for x, y, state in message["cells"]}
    except (KeyError, TypeError, ValueError):
        raise Malformed("cells are a list of x, y and a state") from None
    if not found:
        raise Malformed("there are no cells")
    return tuple((x, y, state) for (x, y), state in found.items())


async def paint(session: Session, message: Message) -> Dict[str, object]:
    """Sets cells at a place, and tells which interventions that act again and again it changed."""
    place = Place(number(message, "branch"), natural(message, "generation"))
    cells, old = cells_of(message), session.document
    await session.edit(lambda it: painted(it, place, cells, session.new_id))
    return {"changed": repeating(old, session.document)}


async def mark(session: Session, message: Message) -> Dict[str, object]:
    """Adds a bookmark."""
    words = str(message.get("view", "counts")).split()
    try:
        view = checked_view(Window(*map(int, words[1:])) if words[:1] == ["window"] else " ".join(words))
    except (TypeError, ValueError):
        raise Malformed("that is no view") from None
    which = session.new_id("bookmarks")
    value = Bookmark(number(message, "branch"), natural(message, "generation"), view)
    _has_branch(session.document, value.branch)
    await session.edit(lambda it: it._replace(bookmarks={**it.bookmarks, which: value}))
    return {"id": which}


async def move(session: Session, message: Message) -> Dict[str, object]:
    """Moves a bookmark to another generation."""
    which, generation = number(message, "id"), natural(message, "generation")
    value = _entry(session.document.bookmarks, which, "bookmark")
    await session.edit(
        lambda it: it._replace(bookmarks={**it.bookmarks, which: value._replace(generation=generation)}))
    return {}


async def change(session: Session, message: Message) -> Dict[str, object]:
    """Lets an intervention act at other generations, with the cells that it has."""
    which, first = number(message, "id"), natural(message, "first")
    distance, last = natural(message, "distance"), natural(message, "last")
    old = _entry(session.document.interventions, which, "intervention")
    value = old._replace(first=first, distance=distance, last=last if distance else first)
    await session.edit(lambda it: it._replace(interventions={**it.interventions, which: value}))
    return {}


async def branch(session: Session, message: Message) -> Dict[str, object]:
    """Adds a branch."""
    which, value = session.new_id("branches"), Branch(number(message, "parent"), natural(message, "generation"))
    _has_branch(session.document, value.parent)
    await session.edit(lambda it: it._replace(branches={**it.branches, which: value}))
    return {"id": which}


async def remove(session: Session, message: Message) -> Dict[str, object]:
    """Removes a bookmark, an intervention, or a branch with all that is on it and leaves it."""
    kind, which = str(message.get("kind")), number(message, "id")
    if kind not in ("bookmarks", "interventions", "branches"):
        raise Malformed("what is removed is a bookmark, an intervention or a branch")
    _entry(getattr(session.document, kind), which, kind)
    make = without_branch if kind == "branches" else lambda it, which: without(it, kind, which)
    await session.edit(lambda it: make(it, which))
    return {}


def without_branch(document: Document, which: int) -> Document:
    """The document without a branch, without those that leave it, and without all that is on them."""
    gone: List[int] = [which]
    for it, value in sorted(document.branches.items()):
        gone += [it] if value.parent in gone else []

    return document._replace(
        branches={it: value for it, value in document.branches.items() if it not in gone},
        interventions={it: value for it, value in document.interventions.items() if value.branch not in gone},
        bookmarks={it: value for it, value in document.bookmarks.items() if value.branch not in gone})


async def rule(session: Session, message: Message) -> Dict[str, object]:
    """Takes a rule by its name, and offers what else can be done where the start has too many states for it."""
    try:
        return await take_rule(session, str(message.get("name", "")), str(message.get("fit", "")))
    except Trouble as trouble:
        return {"refused": explained(trouble), "offers": offers(trouble)}


async def new(session: Session, message: Message) -> Dict[str, object]:
    """An experiment without branches, interventions and bookmarks, and with an empty start."""
    await session.edit(lambda it: Document(rule=it.rule, second=it.second))
    return {}


async def undo(session: Session, message: Message) -> Dict[str, object]:
    """Takes the last edit back."""
    await session.undo()
    return {}


async def redo(session: Session, message: Message) -> Dict[str, object]:
    """Takes the last undoing back."""
    await session.redo()
    return {}


async def reopen(session: Session, message: Message) -> Dict[str, object]:
    """Opens an experiment that an earlier page left."""
    name = str(message.get("name", ""))
    answer = await open_script(session, "the experiment that was left", await session.reopen(name))
    await session.save_by_itself()
    session.discard(name)
    return answer


async def discard(session: Session, message: Message) -> Dict[str, object]:
    """Removes an experiment that an earlier page left."""
    session.discard(str(message.get("name", "")))
    return {}


async def stamps(session: Session, message: Message) -> Dict[str, object]:
    """All stamps of the shelf."""
    return {"stamps": await asyncio.to_thread(session.shelf.all) if session.shelf else []}


async def keep_stamp(session: Session, message: Message) -> Dict[str, object]:
    """Puts a stamp on the shelf."""
    if session.shelf:
        await asyncio.to_thread(session.shelf.add, str(message.get("name", "")), str(message.get("text", "")))
    return await stamps(session, message)


async def drop_stamp(session: Session, message: Message) -> Dict[str, object]:
    """Takes a stamp from the shelf."""
    if session.shelf:
        await asyncio.to_thread(session.shelf.remove, str(message.get("name", "")))
    return await stamps(session, message)


async def retry(session: Session, message: Message) -> Dict[str, object]:
    """Tries again what was given up."""
    await session.retry()
    return {}


def _entry(entries: Mapping[int, Kind], which: int, kind: str) -> Kind:
    if which not in entries:
        raise Trouble(f"there is no {kind} {which} any more")
    return entries[which]


def _has_branch(document: Document, which: int) -> None:
    if which and which not in document.branches:
        raise Trouble(f"there is no branch {which} any more")


ASKED: Dict[str, Callable[[Session, Message], Answer]] = {
    "paint": paint, "mark": mark, "move": move, "change": change, "branch": branch, "remove": remove,
    "rule": rule, "new": new, "undo": undo, "redo": redo, "retry": retry, "reopen": reopen, "discard": discard,
    "stamps": stamps, "keep_stamp": keep_stamp, "drop_stamp": drop_stamp,
    "rule_text": rule_text, "take_rule_text": take_rule_text,
}
