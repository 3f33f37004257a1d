"""The document of a desk: what it has, when its interventions act, and how its branches stand."""
from __future__ import annotations

from dataclasses import dataclass, field, replace
from types import MappingProxyType
from typing import Dict, Iterator, List, Mapping, Tuple, TypeVar, Union

from rule_files import Rule, still
from views import View
from worlds import Cell, World


@dataclass(frozen=True)
class Once:
    """It acts at one generation."""

    first: int

    @property
    def last(self) -> int:
        return self.first

    def acts_on(self, generation: int) -> bool:
        return generation == self.first

    def marks_up_to(self, _reach: int) -> int:
        """What acts once isn't counted among the marks of what repeats."""
        return 0


@dataclass(frozen=True)
class Every:
    """It acts at a generation and at each that is a distance after one at which it acts, up to a last one."""

    distance: int
    first: int
    last: int

    def acts_on(self, generation: int) -> bool:
        return self.first <= generation <= self.last and (generation - self.first) % self.distance == 0

    def marks_up_to(self, reach: int) -> int:
        most = min(reach, self.last)
        return 0 if most < self.first else (most - self.first) // self.distance + 1


Acts = Union[Once, Every]


@dataclass(frozen=True)
class Intervention:
    """Cells that are set where it acts in its branch."""

    branch: int
    acts: Acts
    cells: Tuple[Cell, ...]


@dataclass(frozen=True)
class Bookmark:
    """A view of the pattern at a generation of a branch."""

    branch: int
    generation: int
    view: View


@dataclass(frozen=True)
class Branch:
    """A line of history that leaves its parent at a generation."""

    parent: int
    fork: int


Element = TypeVar("Element", Intervention, Bookmark, Branch)


class Elements(Dict[int, Element]):
    """The elements of one kind by their ids, which rise and are never given twice."""

    def __init__(self, elements: Mapping[int, Element] = MappingProxyType({}), last_id: int = 0) -> None:
        super().__init__(elements)
        self.last_id = last_id

    def copied(self) -> Elements[Element]:
        return Elements(self, self.last_id)

    def add(self, element: Element) -> int:
        self.last_id += 1
        self[self.last_id] = element
        return self.last_id


@dataclass
class Document:
    """A rule, a start, and what is done with them. Branch 0 is always there and isn't listed."""

    rule: Rule = field(default_factory=still)
    start: World = field(default_factory=dict)
    interventions: Elements[Intervention] = field(default_factory=Elements)
    bookmarks: Elements[Bookmark] = field(default_factory=Elements)
    branches: Elements[Branch] = field(default_factory=Elements)
    revision: int = 0

    def copied(self) -> Document:
        """A document of its own with the same elements."""
        return replace(
            self,
            interventions=self.interventions.copied(),
            bookmarks=self.bookmarks.copied(),
            branches=self.branches.copied(),
        )

    def has_branch(self, branch: int) -> bool:
        return branch == 0 or branch in self.branches

    def fork_of(self, branch: int) -> int:
        return self.branches[branch].fork if branch in self.branches else 0

    def is_in_use(self, branch: int) -> bool:
        """Whether a branch is 0, has an intervention or a bookmark, or is the parent of one."""
        return (
            branch == 0
            or any(it.branch == branch for it in self.interventions.values())
            or any(it.branch == branch for it in self.bookmarks.values())
            or any(it.parent == branch for it in self.branches.values())
        )

    def reach_of(self, branch: int) -> int:
        """The greatest generation of a branch that somebody wants: its fork, a bookmark's or another's fork."""
        bookmarks = [it.generation for it in self.bookmarks.values() if it.branch == branch]
        forks = [it.fork for it in self.branches.values() if it.parent == branch]
        return max([self.fork_of(branch), *bookmarks, *forks])

    def marks_of_what_repeats(self) -> int:
        """How often repeating interventions act, each up to the reach of its branch."""
        repeating = [it for it in self.interventions.values() if isinstance(it.acts, Every)]
        reaches = {branch: self.reach_of(branch) for branch in {it.branch for it in repeating}}
        return sum(it.acts.marks_up_to(reaches[it.branch]) for it in repeating)

    def interventions_of(self, branch: int) -> List[Intervention]:
        return [it for it in self.interventions.values() if it.branch == branch]


def cells_at(interventions: List[Intervention], generation: int) -> Iterator[Cell]:
    """The cells that are set at a generation, by rising ids."""
    for intervention in interventions:
        if intervention.acts.acts_on(generation):
            yield from intervention.cells
