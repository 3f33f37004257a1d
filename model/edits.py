"""Edits of a document: why one is refused, and what it makes of the document."""
from __future__ import annotations

from dataclasses import dataclass, replace
from typing import ClassVar, Iterator, Optional, Sequence, Tuple, Union

from documents import Acts, Bookmark, Branch, Document, Every, Intervention
from refusals import Fault, Refused
from rule_files import Rule
from views import View, Window
from worlds import Cell, World

FARTHEST = 2**60
NAMED = range(-FARTHEST, FARTHEST)
MOST_CELLS = 10000
MOST_INTERVENTIONS = 4096
MOST_BOOKMARKS = 4096
MOST_BRANCHES = 64
MOST_MARKS = 8192
LAST_REVISION = 2**64 - 1

# Refusals in the order in which they are looked at, each with whether it applies.
Checks = Iterator[Tuple[bool, Fault]]


def changed(document: Document, edit: Edit) -> Tuple[Document, Optional[int]]:
    """The document behind an edit, with the id of what it added, or the first refusal that applies."""
    for applies, fault in edit.checks(document):
        if applies:
            raise Refused(fault)
    after = document.copied()
    after.revision += 1
    added = edit.make(after)
    if edit.may_add_marks(document) and after.marks_of_what_repeats() > MOST_MARKS:
        raise Refused(Fault.TooManyMarks)
    if document.revision >= LAST_REVISION:
        raise Refused(Fault.RevisionSpent)
    return after, added


class _Edit:
    """What edits have in common."""

    # The word before the id of what it adds, if it adds something.
    added: ClassVar[str] = ""

    def checks(self, document: Document) -> Checks:
        raise NotImplementedError

    def make(self, document: Document) -> Optional[int]:
        """Changes a document that it fits, and gives the id of what it adds."""
        raise NotImplementedError

    def may_add_marks(self, _document: Document) -> bool:
        """Whether interventions that repeat may act more often behind it."""
        return False


def _cell_checks(document: Document, cells: Sequence[Cell]) -> Checks:
    yield len(cells) > MOST_CELLS, Fault.TooManyCells
    yield not all(it.x in NAMED and it.y in NAMED for it in cells), Fault.CellOutOfRange
    yield any(it.state >= document.rule.states for it in cells), Fault.CellStateTooHigh


def _timing_checks(document: Document, branch: int, acts: Acts) -> Checks:
    yield max(acts.first, acts.last) > FARTHEST, Fault.GenerationTooFar
    yield isinstance(acts, Every) and (acts.distance == 0 or acts.last < acts.first), Fault.BadRepeat
    yield acts.first < document.fork_of(branch), Fault.BeforeFork


def _place_checks(document: Document, branch: int, generation: int) -> Checks:
    yield generation > FARTHEST, Fault.GenerationTooFar
    yield generation < document.fork_of(branch), Fault.BeforeFork


@dataclass(frozen=True)
class SetCells(_Edit):
    """Sets cells of the start."""

    cells: Tuple[Cell, ...]

    def checks(self, document: Document) -> Checks:
        return _cell_checks(document, self.cells)

    def make(self, document: Document) -> None:
        start = dict(document.start)
        for cell in self.cells:
            start[cell.x, cell.y] = cell.state
        document.start = {place: state for place, state in start.items() if state}


@dataclass(frozen=True)
class ReplaceStart(_Edit):
    """Takes another start."""

    start: World

    def checks(self, document: Document) -> Checks:
        yield not all(x in NAMED and y in NAMED for x, y in self.start), Fault.CellOutOfRange
        yield any(state >= document.rule.states for state in self.start.values()), Fault.CellStateTooHigh

    def make(self, document: Document) -> None:
        document.start = self.start


@dataclass(frozen=True)
class ReplaceRule(_Edit):
    """Takes another rule, under which the start and all interventions have to be possible."""

    rule: Rule

    def checks(self, document: Document) -> Checks:
        cells = (cell.state for it in document.interventions.values() for cell in it.cells)
        states = self.rule.states
        too_high = any(it >= states for it in document.start.values()) or any(it >= states for it in cells)
        yield too_high, Fault.CellStateTooHigh

    def make(self, document: Document) -> None:
        document.rule = self.rule


@dataclass(frozen=True)
class AddIntervention(_Edit):
    """Adds an intervention to a branch, one that acts once or one that repeats."""

    branch: int
    acts: Acts
    cells: Tuple[Cell, ...]
    added: ClassVar[str] = "intervention"

    def checks(self, document: Document) -> Checks:
        yield not document.has_branch(self.branch), Fault.NoSuchBranch
        yield from _timing_checks(document, self.branch, self.acts)
        yield len(document.interventions) >= MOST_INTERVENTIONS, Fault.TooManyInterventions
        yield from _cell_checks(document, self.cells)

    def make(self, document: Document) -> int:
        return document.interventions.add(Intervention(self.branch, self.acts, self.cells))

    def may_add_marks(self, _document: Document) -> bool:
        return isinstance(self.acts, Every)


@dataclass(frozen=True)
class ChangeIntervention(_Edit):
    """Says anew when an intervention of its branch acts, and with which cells."""

    id: int
    acts: Acts
    cells: Tuple[Cell, ...]

    def checks(self, document: Document) -> Checks:
        yield self.id not in document.interventions, Fault.NoSuchIntervention
        yield from _timing_checks(document, document.interventions[self.id].branch, self.acts)
        yield from _cell_checks(document, self.cells)

    def make(self, document: Document) -> None:
        old = document.interventions[self.id]
        document.interventions[self.id] = replace(old, acts=self.acts, cells=self.cells)

    def may_add_marks(self, _document: Document) -> bool:
        return isinstance(self.acts, Every)


@dataclass(frozen=True)
class RemoveIntervention(_Edit):
    """Removes an intervention."""

    id: int

    def checks(self, document: Document) -> Checks:
        yield self.id not in document.interventions, Fault.NoSuchIntervention

    def make(self, document: Document) -> None:
        del document.interventions[self.id]


@dataclass(frozen=True)
class AddBookmark(_Edit):
    """Adds a bookmark to a branch."""

    branch: int
    generation: int
    view: View
    added: ClassVar[str] = "bookmark"

    def checks(self, document: Document) -> Checks:
        yield not document.has_branch(self.branch), Fault.NoSuchBranch
        yield from _place_checks(document, self.branch, self.generation)
        yield len(document.bookmarks) >= MOST_BOOKMARKS, Fault.TooManyBookmarks
        if isinstance(self.view, Window):
            yield not self.view.has_size(), Fault.BadWindow
            yield not self.view.is_on_plane(), Fault.CellOutOfRange

    def make(self, document: Document) -> int:
        return document.bookmarks.add(Bookmark(self.branch, self.generation, self.view))

    def may_add_marks(self, _document: Document) -> bool:
        return True


@dataclass(frozen=True)
class MoveBookmark(_Edit):
    """Moves a bookmark to another generation of its branch."""

    id: int
    generation: int

    def checks(self, document: Document) -> Checks:
        yield self.id not in document.bookmarks, Fault.NoSuchBookmark
        yield from _place_checks(document, document.bookmarks[self.id].branch, self.generation)

    def make(self, document: Document) -> None:
        document.bookmarks[self.id] = replace(document.bookmarks[self.id], generation=self.generation)

    def may_add_marks(self, _document: Document) -> bool:
        return True


@dataclass(frozen=True)
class RemoveBookmark(_Edit):
    """Removes a bookmark."""

    id: int

    def checks(self, document: Document) -> Checks:
        yield self.id not in document.bookmarks, Fault.NoSuchBookmark

    def make(self, document: Document) -> None:
        del document.bookmarks[self.id]


@dataclass(frozen=True)
class AddBranch(_Edit):
    """Adds a branch that leaves its parent at a generation."""

    parent: int
    generation: int
    added: ClassVar[str] = "branch"

    def checks(self, document: Document) -> Checks:
        yield not document.has_branch(self.parent), Fault.NoSuchBranch
        yield from _place_checks(document, self.parent, self.generation)
        yield len(document.branches) >= MOST_BRANCHES, Fault.TooManyBranches

    def make(self, document: Document) -> int:
        return document.branches.add(Branch(self.parent, self.generation))

    def may_add_marks(self, _document: Document) -> bool:
        return True


@dataclass(frozen=True)
class RemoveBranch(_Edit):
    """Removes a branch that isn't in use."""

    branch: int

    def checks(self, document: Document) -> Checks:
        yield not document.has_branch(self.branch), Fault.NoSuchBranch
        yield document.is_in_use(self.branch), Fault.BranchInUse

    def make(self, document: Document) -> None:
        del document.branches[self.branch]


Edit = Union[
    SetCells,
    ReplaceStart,
    ReplaceRule,
    AddIntervention,
    ChangeIntervention,
    RemoveIntervention,
    AddBookmark,
    MoveBookmark,
    RemoveBookmark,
    AddBranch,
    RemoveBranch,
]
