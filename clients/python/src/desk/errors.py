"""Why there is no answer, as exceptions, and what is worth a warning."""
from __future__ import annotations

from typing import Optional, Tuple, Type, Union

from .meanings import REFUSALS, Meaning


class Trouble(Exception):
    """Why there is no answer: one of those below, or a file or a program that can't be used."""


class Malformed(Trouble, ValueError):
    """A call was given what no command can have. Nothing was sent, and the desk can be used on."""


class Refused(Trouble):
    """A command was refused and changed nothing. Its text has the line, what that means, and what to do.

    number, name: which refusal, as docs/REFUSALS.md lists them
    place: the line in the user's own file, from 1, or None where there is no such line
    told: the number that the reply itself has: a line of what was sent, or a byte of a pattern
    of: the file, or the command
    line: the text of the line, shortened
    brief: the first line of the text, without meaning and remedy
    means, remedy: what the refusal means and what to do, each as part of a sentence; empty for an unknown number
    """

    def __init__(
        self, number: int, name: str, place: Optional[int], told: Optional[int], of: str, line: str = ""
    ) -> None:
        self.number, self.name, self.place, self.told, self.of, self.line = number, name, place, told, of, line
        where, what = "" if place is None else f", line {place}", f": `{line}`" if line else ""
        self.brief = f"{of}{where}: refused {number} {name}{what}"
        _, self.means, self.remedy = REFUSALS.get(number, Meaning())
        explained = f"\nIt means: {self.means}.\nWhat to do: {self.remedy}." if self.means else ""
        super().__init__(f"{self.brief}{explained}")

    def __reduce__(self) -> Tuple[Type[Refused], Tuple[Union[int, str, None], ...]]:
        return type(self), (self.number, self.name, self.place, self.told, self.of, self.line)


class Pending(Trouble):
    """A bookmark has no text, since a settling ended before. `settle` tells the cause."""


class TimedOut(Pending):
    """A bookmark has no text yet, and the time that was given is over. The workers go on."""


class Ended(Trouble):
    """The program ended before it replied. The text has its exit status and what it wrote of it.

    status: the exit status, below 0 where a signal ended the program, or None where it isn't known
    said: what the program wrote to standard error
    """

    def __init__(self, why: str, status: Optional[int] = None, said: str = "") -> None:
        self.status, self.said = status, said
        super().__init__(why)


class RuleNameWarning(UserWarning):
    """A pattern names another rule than the one that is used."""


class BoardWarning(UserWarning):
    """A pattern is made for a board that wraps round, and the plane has no bounds."""
