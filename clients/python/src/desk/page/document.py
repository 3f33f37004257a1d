"""What an experiment is made of, as values, and the commands that make one document of another.

The page has ids of its own, which stay when something is removed and comes back by undoing; `Names` knows those that
the program gave. The same commands undo an edit, start a lost program again, and are the saved script.
"""
from __future__ import annotations

import re
from typing import Any, Dict, List, Mapping, NamedTuple, Optional, Sequence, Tuple, TypeVar, Union

from ..errors import Trouble
from ..words import Cell, View, branch_words, cell_words, view_words

EMPTY_START = b"x = 0, y = 0\n!\n"


class File(NamedTuple):
    """A text that a command takes: its kind is `rule`, `start rle` or `start mc`."""

    kind: str
    name: str
    text: bytes

    def sent(self) -> bytes:
        """The command and the text, which ends by a line of its own."""
        if re.search(rb"(?m)^[ \t]*end[ \t]*\r?$", self.text):
            raise Trouble(f"{self.name}: a line is just `end`, and would end the text")
        ending = b"end\n" if self.text.endswith(b"\n") or not self.text else b"\nend\n"
        return self.kind.encode() + b"\n" + self.text + ending


NO_START = File("start rle", "nothing", EMPTY_START)


class Branch(NamedTuple):
    """It leaves its parent at a generation."""

    parent: int
    generation: int


class Intervention(NamedTuple):
    """Cells that are set from `first` on, each `distance` generations up to `last`; once where distance is 0."""

    branch: int
    first: int
    distance: int
    last: int
    cells: Tuple[Cell, ...]

    def when(self, once: str = "at ") -> str:
        """The words of the generations. `change` has none before the single one."""
        return f"every {self.distance} {self.first} {self.last}" if self.distance else f"{once}{self.first}"


class Bookmark(NamedTuple):
    """A view at a generation of a branch."""

    branch: int
    generation: int
    view: View


Entry = Union[Branch, Intervention, Bookmark]
Acting = TypeVar("Acting", Intervention, Bookmark)


class Document(NamedTuple):
    """An experiment. The cells are those set on the start, a tuple for each command; the second rule is shown beside
    the rule, and no command of this program.
    """

    rule: Optional[File] = None
    start: Optional[File] = None
    cells: Tuple[Tuple[Cell, ...], ...] = ()
    branches: Mapping[int, Branch] = {}
    interventions: Mapping[int, Intervention] = {}
    bookmarks: Mapping[int, Bookmark] = {}
    second: Optional[File] = None

    def same_patterns(self, other: Document) -> bool:
        """Whether no pattern can differ: the same rule, start and interventions."""
        return (self.rule, self.start, self.cells, self.interventions) == (
            other.rule, other.start, other.cells, other.interventions)

    def having(self, kind: str, entries: Mapping[int, Any]) -> Document:
        """The same with other branches, interventions or bookmarks, whichever the kind names."""
        if kind == "branches":
            return self._replace(branches=entries)
        return self._replace(interventions=entries) if kind == "interventions" else self._replace(bookmarks=entries)


class Step(NamedTuple):
    """One command: what it does, the page's id of what it does it to, and the value that this gets."""

    what: str
    id: int = 0
    value: Union[File, Entry, Tuple[Cell, ...], None] = None


class Names:
    """The program's ids of what the page has ids for."""

    def __init__(self) -> None:
        self.branches: Dict[int, int] = {0: 0}
        self.interventions: Dict[int, int] = {}
        self.bookmarks: Dict[int, int] = {}

    @classmethod
    def of(cls, document: Document) -> Names:
        """Those of a document whose ids are the program's own."""
        found = cls()
        for kind in ("branches", "interventions", "bookmarks"):
            getattr(found, kind).update({it: it for it in getattr(document, kind)})
        return found

    def sent(self, step: Step) -> bytes:
        """The bytes of a step's command."""
        if isinstance(step.value, File):
            return step.value.sent()
        return self._words(step.what, step.id, step.value).encode() + b"\n"

    def _words(self, what: str, which: int, value: Union[Entry, Tuple[Cell, ...], None]) -> str:
        if isinstance(value, Intervention):
            if what == "change":
                return f"change {self.interventions[which]} {value.when('')} set {cell_words(value.cells)}"
            return f"{branch_words(self.branches[value.branch])}{value.when()} set {cell_words(value.cells)}"
        if isinstance(value, Bookmark):
            if what == "move":
                return f"move {self.bookmarks[which]} {value.generation}"
            on = branch_words(self.branches[value.branch])
            return f"{on}mark {value.generation} {view_words(value.view)}"
        if isinstance(value, Branch):
            return f"branch {self.branches[value.parent]} {value.generation}"
        return f"set {cell_words(value)}" if value is not None else f"{what} {self._of(what)[which]}"

    def _of(self, what: str) -> Dict[int, int]:
        return {"unbranch": self.branches, "drop": self.interventions, "unmark": self.bookmarks,
                "branch": self.branches, "at": self.interventions, "mark": self.bookmarks}[what]

    def learn(self, step: Step, given: int) -> None:
        """Keeps the id that the program gave to what a step added."""
        if step.what in ("branch", "at", "mark"):
            self._of(step.what)[step.id] = given


def difference(old: Document, new: Document) -> List[Step]:
    """The steps from one document to another."""
    return [*_removals(old, new), *_texts(old, new), *_additions(old, new)]


def _removals(old: Document, new: Document) -> List[Step]:
    found = [Step("unmark", it) for it, value in old.bookmarks.items() if _is_other(value, new.bookmarks.get(it))]
    behind = _behind(old, new)
    found += [Step("drop", it) for it, value in old.interventions.items()
              if it in behind or _is_other(value, new.interventions.get(it))]
    gone = [it for it, value in old.branches.items() if new.branches.get(it) != value]
    return found + [Step("unbranch", it) for it in sorted(gone, reverse=True)]


def _behind(old: Document, new: Document) -> List[int]:
    """Interventions that are made anew though they are kept, since one before them is added: the last one wins."""
    added = [it for it, value in new.interventions.items() if _is_other(value, old.interventions.get(it))]
    return [it for it in old.interventions if added and it > min(added)]


def _is_other(old: Acting, new: Optional[Acting]) -> bool:
    """Whether no `move` or `change` makes one of the other."""
    if new is None or old.branch != new.branch:
        return True
    return isinstance(old, Bookmark) and isinstance(new, Bookmark) and old.view != new.view


def _texts(old: Document, new: Document) -> List[Step]:
    found = []
    known = len(old.cells)
    is_other_start = old.start != new.start or new.cells[:known] != old.cells
    if old.rule != new.rule:
        if new.rule is None:
            raise Trouble("the rule `still` has no file")
        if is_other_start and (old.start or old.cells):  # it may have more states than the new rule
            found.append(Step("start", 0, NO_START))
        found.append(Step("rule", 0, new.rule))
    if is_other_start:
        found += [Step("start", 0, new.start)] if new.start else [] if found else [Step("start", 0, NO_START)]
        known = 0
    return found + [Step("set", 0, it) for it in new.cells[known:]]


def _additions(old: Document, new: Document) -> List[Step]:
    found = [Step("branch", it, value) for it, value in sorted(new.branches.items()) if old.branches.get(it) != value]
    found += _added_or_changed("at", "change", old.interventions, new.interventions, _behind(old, new))
    return found + _added_or_changed("mark", "move", old.bookmarks, new.bookmarks)


def _added_or_changed(add: str, change: str, olds: Mapping[int, Acting], news: Mapping[int, Acting],
                      anew: Sequence[int] = ()) -> List[Step]:
    """The steps for what is new, for those that are made anew, and for what is changed."""
    found = []
    for it, value in sorted(news.items()):
        if it not in olds or it in anew or _is_other(olds[it], value):
            found.append(Step(add, it, value))
        elif olds[it] != value:
            found.append(Step(change, it, value))
    return found


def script_of(document: Document) -> bytes:
    """The script that makes a document: its ids are those that a new program gives."""
    names, parts = Names(), []
    given = {"branch": 0, "at": 0, "mark": 0}
    for step in difference(Document(), document):
        parts.append(names.sent(step))
        if step.what in given:
            given[step.what] += 1
            names.learn(step, given[step.what])
    return b"".join(parts)
