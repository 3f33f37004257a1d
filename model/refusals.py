"""Refusals: their numbers, their names, and the place where one shows."""
from __future__ import annotations

import enum
from typing import Optional


class Fault(enum.IntEnum):
    """Why something is refused, by the name and the number that a reply gives."""

    NoRuleLine = 1
    NoTable = 2
    MissingDescriptor = 3
    BadStates = 4
    BadNeighborhood = 5
    BadSymmetry = 6
    BadVariable = 7
    BadTransition = 8
    StateTooHigh = 9
    FreeResult = 10
    TooManyTransitions = 11
    BadTree = 12
    NotQuiescent = 13
    NoHeader = 20
    BadHeader = 21
    BadRun = 22
    BoundedGrid = 23
    TooManyLive = 24
    NoM2 = 30
    BadRow = 31
    BadChild = 32
    TooDeep = 33
    Timeline = 34
    GenerationTooFar = 40
    CellOutOfRange = 41
    CellStateTooHigh = 42
    NoSuchIntervention = 43
    NoSuchBookmark = 44
    TooManyInterventions = 45
    TooManyBookmarks = 46
    TooManyCells = 47
    BadWindow = 48
    RevisionSpent = 49
    NoSuchBranch = 50
    BeforeFork = 51
    BranchInUse = 52
    TooManyBranches = 53
    TooManyMarks = 54
    BadRepeat = 55
    NoMemory = 70
    NoRoom = 71
    BadCommand = 80
    NoEnd = 81


class Refused(Exception):
    """A text or an edit that is refused, with the line or the offset where that shows, if there is one."""

    def __init__(self, fault: Fault, place: Optional[int] = None) -> None:
        super().__init__(fault, place)
        self.fault = fault
        self.place = place

    def told(self) -> bytes:
        """The line that is replied."""
        place = "" if self.place is None else f" {self.place}"
        return f"refused {self.fault.value} {self.fault.name}{place}\n".encode()
