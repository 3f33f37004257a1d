"""What becomes of files that a user gives together: a rule and a pattern, or a script."""
from __future__ import annotations

import asyncio
from typing import Iterable, List, NamedTuple, Optional, Sequence, Tuple

from ..errors import Refused, Trouble
from ..refusals import refusal

from .document import Document, File
from .files import file_of, unpacked
from .fitting import fitted
from .header_rules import named_rule, rule_of_name, why_not
from .looks import Message
from .program import Program
from .refusals import explained
from .script import commands_of, taken
from .second_script import second_rule_in
from .session import Session

TOO_HIGH = 42  # the refusal of a state that the rule hasn't
# So many refusals at a script's beginning tell that it is none.
MOST_REFUSED = 20
Sent = Tuple[str, bytes]  # a file's name and its bytes


class Given(NamedTuple):
    """What files are: a rule, a pattern, or a script."""

    rule: Optional[File] = None
    start: Optional[File] = None
    script: Optional[Sent] = None


def given(files: Iterable[Sent]) -> Given:
    """What files are. Trouble: there are two of a kind, or a script isn't alone."""
    rules: List[File] = []
    starts: List[File] = []
    scripts: List[Sent] = []
    for name, data in files:
        file = file_of(name, data)
        if file is None:
            scripts.append((name, unpacked(name, data)))
        else:
            (rules if file.kind == "rule" else starts).append(file)
    for kind, names in (("rule", [it.name for it in rules]), ("pattern", [it.name for it in starts]),
                        ("script", [name for name, _ in scripts])):
        if len(names) > 1:
            raise Trouble(f"{names[1]} is a second {kind}; take one at a time")
    if scripts and (rules or starts):
        raise Trouble(f"{scripts[0][0]} is a script, which has its rule and its start in it; take it alone")
    return Given(next(iter(rules), None), next(iter(starts), None), next(iter(scripts), None))


async def take(session: Session, files: Sequence[Sent], fit: str = "", beside: Optional[str] = None) -> Message:
    """Takes files as one edit: all of them, or none where one is refused.

    beside: the path of a pattern's file, where that is known: the rule that its header names may lie there
    """
    found = await asyncio.to_thread(given, files)
    if found.script:
        return await open_script(session, *found.script)
    rule = found.rule
    named = named_rule(found.start)
    if named and not rule and (fit == "header" or session.document.rule is None and not why_not(named, beside)):
        rule = await asyncio.to_thread(rule_of_name, named, beside)

    def make(old: Document) -> Document:
        new = old._replace(rule=rule or old.rule)
        new = new._replace(start=found.start, cells=()) if found.start else new
        return fitted(new, "" if fit == "header" else fit)

    await session.edit(make)
    return {"kind": " and ".join(it.kind for it in (found.rule, found.start) if it)}


async def take_rule(session: Session, name: str, fit: str = "") -> Message:
    """Takes a rule by its name."""
    rule = await asyncio.to_thread(rule_of_name, name)
    await session.edit(lambda it: fitted(it._replace(rule=rule), fit))
    return {}


def offers(trouble: Trouble, files: Sequence[Sent] = ()) -> List[Message]:
    """What else can be done where a rule has too few states: how to make the start suit it, in words."""
    if not isinstance(trouble, Refused) or trouble.number != TOO_HIGH:
        return []
    found = given(files)
    ways = [{"fit": "ones", "words": "Take it, and let states above become 1"}]
    if found.start is None:
        ways.append({"fit": "empty", "words": "Take it with an empty start"})
    elif found.rule is None and named_rule(found.start) and not why_not(named_rule(found.start)):
        ways.insert(0, {"fit": "header", "words": f"Take it with its rule {named_rule(found.start)}"})
    return ways


async def open_script(session: Session, name: str, script: bytes) -> Message:
    """Opens a script in a new program. What it refuses is told, and the rest is the experiment."""
    program = await session.keeper.begin()
    try:
        document, refused = await _run(program, name, script)
    except BaseException:
        await program.end()
        raise
    await session.replace(program, document)
    return {"kind": "script", "refused": refused}


async def _run(program: Program, name: str, script: bytes) -> Tuple[Document, List[Message]]:
    """What a script makes of a new program's document, and what was refused."""
    document, refused = Document(), []
    for command in commands_of(script):
        reply = await program.ask(command.sent())
        if reply.words[0] == "ok":
            document = taken(document, command, int(reply.words[3]) if len(reply.words) > 3 else 0)
            continue
        refused.append(explained(refusal(reply.words, command.text, f"{name}, line {command.line}")))
        if len(refused) >= MOST_REFUSED and document == Document():
            break
    if document == Document():
        raise Trouble(f"{name} is no rule, no pattern and no script that makes anything")
    return document._replace(second=second_rule_in(script)), refused
