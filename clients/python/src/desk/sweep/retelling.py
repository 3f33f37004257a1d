"""A program that is told one document after another: only what differs is sent.

Whoever tells a document says all of it, from the opening on. As long as it is told as the one before, nothing is sent
and what the program knows stays known. From the first command that differs on, what the one before had added is
taken away. So a signal that is cut at another generation costs what comes after the cut, and another soup under the
same rule doesn't need the rule's text again.

That a text is the one which a fresh computation of the present document gives is what the program promises. So a
program that was used before serves as well as a new one, and takes less time: starting one took 3 to 12 ms, and
taking a small document away 0.2 ms. Only ids and the revision go on and don't begin again at 1.
"""
from __future__ import annotations

import os
from typing import List, NamedTuple, Optional

from ..accepted import LOOKS
from ..client import Desk
from ..refusals import brief, refusal
from ..transport import Command, Reply, Taken, Transport, nothing_kept

STILL = b"@RULE still\n@TABLE\nn_states:2\nneighborhood:vonNeumann\nsymmetries:none\n"
EMPTY = b"x = 0, y = 0\n!\n"
REMOVAL = {"at": "drop", "every": "drop", "mark": "unmark", "branch": "unbranch"}
BEGINNING = ("rule", "start", "set")
# A worker keeps squares from step to step under one rule. Once those of other starts are so many bytes they slow it
# down: of soups of 64 by 64 to generation 1,000 under Life, one took 85 ms of a processor in place of 61.
MANY = 8 << 20


class Told(NamedTuple):
    """An edit that was accepted, and its reply."""

    command: Command
    reply: Reply

    @property
    def kind(self) -> str:
        """The command's name, without the branch that it is of."""
        return self.command.kind

    @property
    def id(self) -> str:
        """The id that the reply gave."""
        return self.reply.words[3]


def memory_of(process: int) -> int:
    """How many bytes of memory a process takes, or 0 where the system doesn't tell by /proc."""
    try:
        with open(f"/proc/{process}/statm", "rb") as file:
            return int(file.read().split()[1]) * os.sysconf("SC_PAGE_SIZE")
    except (OSError, ValueError, IndexError):
        return 0


class Retelling:
    """A `Transport` over another one, whose document is told again and again, each time to a new desk of `begin`."""

    def __init__(self, inner: Transport) -> None:
        self._inner = inner
        self._told: List[Told] = []
        self._here = 0  # how many of them are told again
        self._is_stale = False  # whether the program has another start than they say
        self._times, self._least = 0, memory_of(self.process)  # how often it forgot, and its memory then

    @property
    def process(self) -> int:
        """The number of the program's process."""
        return self._inner.process

    def begin(self) -> Desk:
        """A desk to which another document is told, from its opening on. The desks before it are of no use any more.

        It doesn't poll, since cases are short and many, and whoever leaves one closes the program.
        """
        self._here = 0
        return Desk(transport=self, polls=False)

    def ask(self, command: Command, taken: Taken = nothing_kept) -> Reply:
        """Gives the reply to a command, which isn't sent where it is told again."""
        if not self._here and any(it.kind not in REMOVAL and it.kind not in BEGINNING for it in self._told):
            self._take_back()  # what changed or removed something isn't told again step by step
        is_edit = command.kind not in LOOKS
        if is_edit and self._here < len(self._told) and self._told[self._here].command == command:
            self._here += 1
            reply = self._told[self._here - 1].reply
            taken(reply)
            return reply
        reply = self._sent(command, taken)
        if is_edit and reply.words[0] == "ok":
            self._told.append(Told(command, reply))
            self._here += 1
        return reply

    def wait(self, taken: Taken = nothing_kept) -> bool:
        """Waits until no reply is due any more, and calls then."""
        return self._inner.wait(taken)

    def close(self) -> None:
        """Ends the program, whatever it is at."""
        self._inner.close()

    def _sent(self, command: Command, taken: Taken) -> Reply:
        """Sends a command to the document as it was told so far."""
        if self._here < len(self._told):
            self._take_back()
        is_start = command.kind == "start"
        if self._is_stale and not is_start:
            self._restart()
        reply = self._inner.ask(command, taken)
        if is_start and reply.words[0] == "ok":
            self._is_stale = False
        return reply

    def _do(self, line: str, text: Optional[bytes] = None) -> List[str]:
        """Sends a command of its own, and gives the words of the reply."""
        words = self._inner.ask(Command(line, text)).words
        if words[0] == "refused":
            raise refusal(words, text, f"`{brief(line)}`")
        return words

    def _take_back(self) -> None:
        """Takes away what was told beyond what is told again."""
        beyond, self._told = self._told[self._here:], self._told[:self._here]
        removed = {(it.kind, it.command.line.split()[-1]) for it in beyond}
        for it in reversed(beyond):
            if it.kind in REMOVAL and (REMOVAL[it.kind], it.id) not in removed:
                self._do(f"{REMOVAL[it.kind]} {it.id}")
        kinds = {it.kind for it in beyond}
        if kinds & set(BEGINNING):
            self._begin_again("rule" in kinds)

    def _begin_again(self, is_ruled: bool) -> None:
        """Gives the rule that is told again, or the opening's. The start waits, since another one often follows."""
        starts = any(it.kind in ("start", "set") for it in self._told)
        is_plain = all(it.kind in BEGINNING for it in self._told)
        forgets = is_plain and not is_ruled and memory_of(self.process) > self._least + MANY
        if is_ruled or forgets:
            self._do("start rle", EMPTY)  # a rule isn't taken whose states are too few for the start
            if forgets:
                self._forget()
            self._do("rule", next((it.command.text for it in reversed(self._told) if it.kind == "rule"), STILL))
        self._is_stale = starts or not (is_ruled or forgets)

    def _restart(self) -> None:
        """Gives the start that is told again, or the opening's."""
        starts = [number for number, it in enumerate(self._told) if it.kind == "start"]
        first = starts[-1] if starts else 0
        if not starts:
            self._do("start rle", EMPTY)
        for it in self._told[first:]:
            if it.kind in ("start", "set"):
                self._do(*it.command)
        self._is_stale = False

    def _forget(self) -> None:
        """Lets the worker take a step under another rule, by which it forgets the squares of the one before."""
        self._times += 1  # another cell each time, since a step that is remembered isn't taken
        self._do("rule", STILL)
        self._do(f"set {self._times} 0 1")
        bookmark = self._do("mark 1 counts")[3]
        self._do("settle")
        self._do(f"unmark {bookmark}")
        self._do("start rle", EMPTY)
        self._least = memory_of(self.process)
