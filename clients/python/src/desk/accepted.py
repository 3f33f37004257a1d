"""The edits that a desk accepted, and scripts that make a document by such edits.

A script of the accepted edits makes the document anew, with the ids of a new program. What later edits made needless is
left out, but only where no other edit could be refused for lack of it:

- A start takes the place of all starts and cells of the start before it. Without these a rule has fewer states to fit.
- Of an intervention that was dropped the cells don't count, so one cell of state 0 stands for them.
- A rule isn't needed where no edit up to the next rule names states, since the others are refused for no rule.
- Where an intervention is changed twice in a row, or a bookmark moved, the second edit leaves the same document.

All other edits stay, also those of elements that were removed, so that ids are given as before.
"""
from __future__ import annotations

from typing import Dict, Iterator, List, NamedTuple, Optional, Set

from .errors import Trouble
from .transport import Command

STARTS = ("start", "set")
NAMES_STATES = ("start", "set", "at", "every", "change")
LOOKS = ("settle", "work", "show", "peek", "poll", "list", "script", "help")
TEXTS = ("rule", "start rle", "start mc")
NO_STATE = "set 0 0 0"
# Of what sort is what a command adds, and what it names by its second word.
ADDS = {"at": "intervention", "every": "intervention", "mark": "bookmark", "branch": "branch"}
REFERS = {"on": "branch", "branch": "branch", "unbranch": "branch", "change": "intervention", "drop": "intervention",
          "move": "bookmark", "unmark": "bookmark"}
MOST_TIMES = 8192  # that all interventions act together
# Edits of so many bytes are kept before it is first looked for needless ones.
MANY = 1 << 20


class Edit(NamedTuple):
    """A command that edits, and the id that the reply gave, if it gave one."""

    command: Command
    id: int = 0

    @property
    def kind(self) -> str:
        """The command's name, without the branch that it is of."""
        return self.command.kind

    @property
    def of(self) -> int:
        """The id of what it changes, moves or removes."""
        return int(self.command.line.split(" ", 2)[1])

    def names_states(self) -> bool:
        """Whether it is refused where a rule has too few states."""
        return self.kind in NAMES_STATES and not self.command.line.endswith(NO_STATE)


class Accepted:
    """The edits that were accepted since the opening, those left out that are needless."""

    def __init__(self) -> None:
        self.bookmarks = 0  # how many there are
        self._times: Dict[int, int] = {}  # how often each intervention acts at most
        self._acts = 0  # how often all of them do
        self._edits: List[Edit] = []
        self._size, self._most = 0, MANY

    @property
    def steps(self) -> int:
        """How many results a settling may compute one after the other at most, 1 or more."""
        return max(1, self.bookmarks + min(MOST_TIMES, self._acts))

    @property
    def rule(self) -> Optional[Command]:
        """The command that gave the rule, or None where none was given yet."""
        return next((it.command for it in reversed(self._edits) if it.kind == "rule"), None)

    @property
    def start(self) -> List[Command]:
        """The commands that gave the start, and those that set cells of it."""
        return [it.command for it in _without_old_starts(self._edits) if it.kind in STARTS]

    def add(self, command: Command, words: List[str]) -> None:
        """Takes an edit that was accepted, with the words of its reply."""
        edit = Edit(command, int(words[3]) if len(words) > 3 else 0)
        self.bookmarks += (edit.kind == "mark") - (edit.kind == "unmark")
        if edit.kind in ("at", "every"):
            self._act(edit.id, _times(command.line))
        elif edit.kind in ("change", "drop"):
            self._act(edit.of, _times(command.line) if edit.kind == "change" else 0)
        self._edits.append(edit)
        self._size += _size(edit)
        if self._size > self._most:
            self._edits = needed(self._edits)
            self._size = sum(map(_size, self._edits))
            self._most = 2 * self._size + MANY

    def _act(self, intervention: int, times: int) -> None:
        self._acts += times - self._times.pop(intervention, 0)
        if times:
            self._times[intervention] = times

    def script(self) -> bytes:
        """A script that makes the document anew in a new program, by whose ids it calls what there is."""
        return b"".join(command.sent() for command in renumbered(needed(self._edits)))


def _size(edit: Edit) -> int:
    return len(edit.command.line) + len(edit.command.text or b"")


def _times(line: str) -> int:
    """How often an intervention acts, by the line that says it."""
    words = line.split(" ", 7)
    if "every" not in words:
        return 1
    distance, first, last = map(int, words[words.index("every") + 1:][:3])
    return (last - first) // distance + 1


def renumbered(edits: List[Edit]) -> Iterator[Command]:
    """The commands of edits, with the ids that a new program gives: for each sort from 1 on, in turn."""
    ids: Dict[str, Dict[int, int]] = {"intervention": {}, "bookmark": {}, "branch": {}}
    for edit in edits:
        words = edit.command.line.split(" ", 2)
        sort = REFERS.get(words[0])
        if sort:
            words[1] = str(ids[sort].get(int(words[1]), 0))  # only branch 0 was never added
        if edit.kind in ADDS:
            there = ids[ADDS[edit.kind]]
            there[edit.id] = len(there) + 1
        yield edit.command._replace(line=" ".join(words))


def needed(edits: List[Edit]) -> List[Edit]:
    """The edits without those that later ones made needless."""
    edits = _without_old_starts(edits)
    dropped = {edit.of for edit in edits if edit.kind == "drop"}
    edits = [_without_cells(edit, dropped) for edit in edits]
    found: List[Edit] = []
    is_ruled_anew, said_behind = False, ""  # of the edits behind
    for edit in reversed(edits):
        if edit.kind == "rule":
            is_needed, is_ruled_anew = not is_ruled_anew, True
        else:
            is_ruled_anew = is_ruled_anew and not edit.names_states()
            said = f"{edit.kind} {edit.of}" if edit.kind in ("change", "move") else ""
            is_needed = not said or said != said_behind
            said_behind = said
        if is_needed:
            found.append(edit)
            said_behind = said_behind if edit.kind != "rule" else ""
    return found[::-1]


def _without_old_starts(edits: List[Edit]) -> List[Edit]:
    last_start = max((at for at, edit in enumerate(edits) if edit.kind == "start"), default=0)
    return [edit for at, edit in enumerate(edits) if at >= last_start or edit.kind not in STARTS]


def _without_cells(edit: Edit, dropped: Set[int]) -> Edit:
    """The edit, or if it is of an intervention that was dropped, one that is made as it was and sets nothing."""
    id_ = edit.id if edit.kind in ("at", "every") else edit.of if edit.kind == "change" else None
    if id_ not in dropped:
        return edit
    return edit._replace(command=Command(f"{edit.command.line.partition(' set ')[0]} {NO_STATE}"))


class Line(NamedTuple):
    """A command of a script, and its line there, from 1."""

    command: Command
    number: int


def edits_of(script: bytes, path: str) -> Iterator[Line]:
    """The edits of a script up to `quit`. Commands that only look are passed over.

    Trouble: a text has no end.
    """
    lines = enumerate(script.split(b"\n"), 1)
    for number, raw in lines:
        said = " ".join(word for word in _said(raw).decode("latin-1").split(" ") if word)
        if said == "quit":
            return
        if not said or said.startswith("#") or said.partition(" ")[0] in LOOKS:
            continue
        text: Optional[bytes] = None
        if said in TEXTS:
            taken: List[bytes] = []
            for _, inner in lines:
                if _said(inner) == b"end":
                    break
                taken.append(inner + b"\n")
            else:
                raise Trouble(f"{path}: the text from line {number} on has no `end`")
            text = b"".join(taken)
        yield Line(Command(said, text), number)


def _said(line: bytes) -> bytes:
    """A line without a carriage return at its end, and then without blanks at its ends."""
    return (line[:-1] if line.endswith(b"\r") else line).strip(b" \t")
