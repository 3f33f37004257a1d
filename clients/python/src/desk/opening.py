"""A rule and a start that are taken as one: where one of them is refused both stay as they were.

The program takes one after the other, and refuses a rule that has fewer states than the start which is there. So the
rule is sent first, where need be to an empty plane, and then the start. Where one is refused, or the call is broken
off between them, what was there before is sent again. Branches, interventions and bookmarks with their ids are never
touched, but the revision goes up.
"""
from __future__ import annotations

from typing import Callable, List, NamedTuple, Optional

from .accepted import Accepted
from .errors import Refused
from .formats.pattern import pattern_of
from .rules.found import Found, rule_named
from .transport import Command

# The rule and the start of a new document.
STILL = Command("rule", b"@RULE still\n@TABLE\nn_states:2\nneighborhood:vonNeumann\nsymmetries:none\n")
EMPTY = Command("start rle", b"x = 0, y = 0\n!\n")
TOO_FEW_STATES = "CellStateTooHigh"
BEFORE = "the rule and the start that were there"  # what refusals call them

Keep = Callable[[List[str]], None]  # it keeps what the words of a reply tell
Edit = Callable[[Command, str, Optional[Keep]], List[str]]  # it sends an edit, and gives the words of its reply
Wait = Callable[[], object]  # it waits until no reply is due


class File(NamedTuple):
    """The command that takes a file's text, and what refusals call the file."""

    command: Command
    name: str


class _Attempt:
    """What gives back the rule and the start that were there; nothing, once others are taken."""

    def __init__(self, back: List[Command]) -> None:
        self.back = back

    def succeed(self, _words: List[str]) -> None:
        self.back = []


class Opening:
    """How a desk takes starts, and rules with them.

    Its methods are given the desk's way to send an edit, and to wait.
    """

    def __init__(self, accepted: Accepted) -> None:
        self._accepted = accepted
        self._attempt = _Attempt([])
        self._found: Optional[Found] = None  # the rule that a start brought last
        self._brought: Optional[Command] = None  # the command that gave it, if the pattern named it

    @property
    def line(self) -> str:
        """A line that says which rule a start brought last, and from where; empty where none did."""
        return self._found.line if self._found else ""

    def start(self, text: bytes, name: str, path: Optional[str], rule: Optional[str], edit: Edit, wait: Wait
              ) -> List[str]:
        """Takes a pattern and the rule that it brings, and gives the words of the reply to the start.

        name: what refusals call the pattern
        path: its file, beside which rules are looked for too
        rule: the path or the name of the rule that it brings in any case
        """
        self.restore(edit, wait)
        pattern = pattern_of(text, name)
        start = File(Command("start mc" if pattern.is_macrocell else "start rle", pattern.text), name)
        present = None if self._accepted.rule is STILL else self._accepted.rule
        is_given = present is not None and present is not self._brought
        if rule is None and (is_given or pattern.rule == "" and present):
            return edit(*start, None)
        found = rule_named(pattern.rule, path, rule)
        brought = File(Command("rule", found.text), found.path or found.name)
        words = edit(*start, None) if brought.command == present else self._take(brought, start, edit, wait)
        self._found, self._brought = found, self._accepted.rule if rule is None else None
        return words

    def restore(self, edit: Edit, wait: Wait) -> None:
        """Gives back what was there before a start that was refused or broken off, if that wasn't done yet.

        It has to come before each command. Where what was there is refused in turn, as for lack of memory, that is
        raised, and the next call tries it again.
        """
        if self._attempt.back:
            wait()  # a start whose reply is due may be taken still
            for command in self._attempt.back:
                edit(command, BEFORE, None)
            self._attempt = _Attempt([])

    def _take(self, rule: File, start: File, edit: Edit, wait: Wait) -> List[str]:
        self._attempt = attempt = _Attempt([self._accepted.rule or STILL])
        try:
            self._take_rule(rule, edit)
            return edit(*start, attempt.succeed)
        except Refused:
            self.restore(edit, wait)
            raise

    def _take_rule(self, rule: File, edit: Edit) -> None:
        attempt = self._attempt
        try:
            edit(*rule, None)
            return
        except Refused as refused:
            if refused.name != TOO_FEW_STATES:
                attempt.back = []
                raise
        attempt.back = [EMPTY, *attempt.back, *self._accepted.start]
        edit(EMPTY, BEFORE, None)
        edit(*rule, None)
