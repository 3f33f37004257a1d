"""Rule files: the rule's name, and the section that says what the rule does."""
from __future__ import annotations

import enum
import re
from dataclasses import dataclass
from typing import Dict, Iterator, List, Optional, Union

from refusals import Fault, Refused
from tables import Table, still_table, table_of
from texts import BLANKS, NumberedLine, says_of
from trees import Tree, tree_of
from worlds import Around


class SectionKind(enum.Enum):
    """The sections that say what a rule does, by the words that open them."""

    TABLE = b"@TABLE"
    TREE = b"@TREE"


@dataclass(frozen=True)
class Section:
    """A section, the number of the line that opens it, and the lines that say something in it."""

    kind: SectionKind
    opened: int
    lines: List[NumberedLine]


class Rule:
    """A named table or tree.

    Its text is that of the file that it was read from, if it was read. It keeps the next state of nine states once it
    was asked for it, since a table takes long to look up.
    """

    def __init__(self, name: bytes, kind: Union[Table, Tree], text: Optional[bytes] = None) -> None:
        self.name = name
        self.text = text
        self.kind = kind
        self.states = kind.states
        self._known: Dict[Around, int] = {}

    def next_state(self, around: Around) -> int:
        if around not in self._known:
            self._known[around] = self.kind.next_state(around)
        return self._known[around]


def still() -> Rule:
    """The rule of the opening document, under which nothing changes."""
    return Rule(b"still", still_table())


def rule_of(text: bytes) -> Rule:
    """The rule that a file means."""
    lines = says_of(text)
    name = _name_in(lines)
    section = _section_in(lines)
    is_table = section.kind is SectionKind.TABLE
    kind = table_of(section.lines) if is_table else tree_of(section.opened, section.lines)
    return Rule(name, kind, text)


def _name_in(lines: Iterator[NumberedLine]) -> bytes:
    """The name that the first line that isn't blank gives."""
    first = next((line.text for line in lines if line.text), b"")
    found = re.fullmatch(rb"@RULE ([!-9;-~]+)", first)
    if not found:
        raise Refused(Fault.NoRuleLine)
    return found[1]


def _section_in(lines: Iterator[NumberedLine]) -> Section:
    """The first table or tree."""
    kinds = {kind.value: kind for kind in SectionKind}
    for line in lines:
        word = re.split(rb"[ \t]", line.text)[0]
        if word in kinds:
            return Section(kinds[word], line.number, list(_said_in(lines)))
    raise Refused(Fault.NoTable)


def _said_in(lines: Iterator[NumberedLine]) -> Iterator[NumberedLine]:
    """What the lines say up to the next section, without comments."""
    for line in lines:
        if line.text.startswith(b"@"):
            return
        said = line.text.partition(b"#")[0].strip(BLANKS)
        if said:
            yield NumberedLine(line.number, said)
