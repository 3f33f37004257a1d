"""A script read back: its commands, and what an accepted one makes of a document."""
from __future__ import annotations

import re
from typing import Iterator, List, NamedTuple, Optional, Tuple

from ..errors import Trouble
from ..words import Cell, View, Window

from .document import Bookmark, Branch, Document, Entry, File, Intervention

# What says nothing of the document.
PASSED_OVER = ("work", "settle", "show", "peek", "poll", "list", "script", "help")


class Command(NamedTuple):
    """A line of a script from 1, its words, and the text that belongs to it."""

    line: int
    words: List[str]
    text: Optional[bytes]

    def sent(self) -> bytes:
        """Its bytes, as the program takes them."""
        line = " ".join(self.words).encode() + b"\n"
        return line if self.text is None else line + self.text + b"end\n"


def commands_of(script: bytes) -> Iterator[Command]:
    """The commands of a script that edit, up to `quit`."""
    lines = script.splitlines(keepends=True)
    place = 0
    while place < len(lines):
        words = lines[place].decode("latin-1").split()
        place += 1
        if not words or words[0].startswith("#") or words[0] in PASSED_OVER:
            continue
        if words == ["quit"]:
            return
        first, text = place, None
        if words in (["rule"], ["start", "rle"], ["start", "mc"]):
            while place < len(lines) and lines[place].strip() != b"end":
                place += 1
            if place == len(lines):
                raise Trouble(f"line {first}: its text has no line `end`")
            text = b"".join(lines[first:place])
            place += 1
        yield Command(first, words, text)


def taken(document: Document, command: Command, given: int) -> Document:
    """The document after a command that was accepted, which gave an id."""
    words, branch = command.words, 0
    if words[0] == "on":
        branch, words = int(words[1]), words[2:]
    what = words[0]
    if command.text is not None:
        return _with_file(document, File(" ".join(words), _name(command.text, command.line), command.text))
    if what == "set":
        return document._replace(cells=(*document.cells, _cells(words[1:])))
    if what in ("at", "every"):
        return _put(document, "interventions", given, _intervention(branch, words[1:], what == "every"))
    if what == "change":
        is_repeat, which = words[2] == "every", int(words[1])
        value = _intervention(document.interventions[which].branch, words[3 if is_repeat else 2:], is_repeat)
        return _put(document, "interventions", which, value)
    if what == "mark":
        return _put(document, "bookmarks", given, Bookmark(branch, int(words[1]), _view(words[2:])))
    if what == "move":
        which = int(words[1])
        return _put(document, "bookmarks", which, document.bookmarks[which]._replace(generation=int(words[2])))
    if what == "branch":
        return _put(document, "branches", given, Branch(int(words[1]), int(words[2])))
    kind = {"drop": "interventions", "unmark": "bookmarks", "unbranch": "branches"}[what]
    return without(document, kind, int(words[1]))


def _with_file(document: Document, file: File) -> Document:
    return document._replace(rule=file) if file.kind == "rule" else document._replace(start=file, cells=())


def _name(text: bytes, line: int) -> str:
    found = re.search(rb"^\s*@RULE[ \t]+([^\r\n]*)", text)
    return found[1].decode("latin-1") if found else f"the script's line {line}"


def _intervention(branch: int, words: List[str], is_repeat: bool) -> Intervention:
    if is_repeat:
        distance, first, last = map(int, words[:3])
        return Intervention(branch, first, distance, last, _cells(words[4:]))
    return Intervention(branch, int(words[0]), 0, int(words[0]), _cells(words[2:]))


def _cells(words: List[str]) -> Tuple[Cell, ...]:
    numbers = [int(it) for it in words]
    return tuple(zip(numbers[::3], numbers[1::3], numbers[2::3]))


def _view(words: List[str]) -> View:
    return Window(*map(int, words[1:])) if words[0] == "window" else words[0]


def _put(document: Document, kind: str, which: int, value: Entry) -> Document:
    return document.having(kind, {**getattr(document, kind), which: value})


def without(document: Document, kind: str, which: int) -> Document:
    """The document without one of its branches, interventions or bookmarks."""
    return document.having(kind, {it: value for it, value in getattr(document, kind).items() if it != which})
