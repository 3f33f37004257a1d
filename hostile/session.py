"""A running program that is sent commands, and is watched while a reply is due."""
from __future__ import annotations

import contextlib
import os
import select
import subprocess
import time
from pathlib import Path
from typing import Callable, Dict, Iterator, List, NamedTuple

# A program may be found so often in a row with all threads asleep while a reply is due, each time after a wait of so
# many seconds, which makes five. Where the machine is busy these waits take longer, and threads are found that would
# run.
LOOKS, SECONDS_A_LOOK = 25, 0.2
SECONDS_TO_REPLY, SECONDS_TO_END = 120, 20
# So many seconds of the processor a program may take while something is polled for.
SECONDS_OF_WORK = 8
TICKS = os.sysconf("SC_CLK_TCK")


class Wrong(Exception):
    """What a case or a run found."""


def need(holds: object, found: object) -> None:
    if not holds:
        raise Wrong(found)


class Session:
    """The program while it runs.

    A read that waits for a reply fails where all threads sleep: then a wake-up was lost. It waits on where they work,
    and while commands are still being sent.
    """

    def __init__(self, program: str, *words: str, **settings: object) -> None:
        devices = {"stdin": subprocess.PIPE, "stdout": subprocess.PIPE, "stderr": subprocess.PIPE}
        self.process = subprocess.Popen([program, *words], bufsize=0, **{**devices, **settings})
        self.rest = bytearray()
        self.patience: float = SECONDS_TO_REPLY
        self.is_sending: Callable[[], bool] = lambda: False

    def close(self) -> None:
        self.process.kill()
        self.process.wait()
        for pipe in (self.process.stdin, self.process.stdout, self.process.stderr):
            if pipe:
                pipe.close()

    def tell(self, commands: bytes) -> None:
        left = memoryview(commands)
        while left:
            left = left[self.process.stdin.write(left):]

    def expect(self, command: bytes, reply: bytes) -> None:
        self.tell(command + b"\n")
        found = self.line()
        need(found == reply, f"{command!r}: {found!r}, not {reply!r}")

    def edit(self, *edits: bytes) -> None:
        """Sends edits that have to be accepted."""
        self.tell(b"\n".join(edits) + b"\n")
        for edit in edits:
            reply = self.line()
            need(reply.startswith(b"ok "), f"{edit[:60]!r}: {reply!r}")

    def work(self) -> None:
        self.expect(b"work", b"working")

    def settle(self) -> None:
        self.expect(b"settle", b"settled")

    def expect_text(self, bookmark: int, text: bytes) -> None:
        """Wants a bookmark to show a text."""
        self.expect(b"show %d" % bookmark, b"bookmark %d current %d" % (bookmark, len(text)))
        found = self.text(len(text))
        need(found == text, f"bookmark {bookmark} shows {found!r}, not {text!r}")

    def is_known(self, bookmark: int) -> bool:
        """Whether a bookmark is current now."""
        self.tell(b"list\n")
        line, is_current = self.line(), False
        while not line.startswith(b"listed "):
            is_current |= line.startswith(b"bookmark %d on " % bookmark) and line.endswith(b" current")
            line = self.line()
        return is_current

    def ask(self, command: bytes) -> bytes:
        """Sends a command that shows at most one text, and gives its whole reply."""
        self.tell(command)
        line = self.line()
        words = line.split()
        is_text = words[:1] == [b"bookmark"] and words[2:3] == [b"current"]
        return line + b"\n" + (self.text(int(words[3])) if is_text else b"")

    def text(self, size: int) -> bytes:
        """So many bytes of the replies."""
        while len(self.rest) < size:
            need(self.read(), "the replies end within a text")
        found = bytes(self.rest[:size])
        del self.rest[:size]
        return found

    def line(self) -> bytes:
        """The next line of the replies."""
        while (end := self.rest.find(b"\n")) < 0:
            need(self.read(), f"the replies end with {bytes(self.rest)!r}")
        line = bytes(self.rest[:end])
        del self.rest[: end + 1]
        return line

    def read(self) -> bool:
        """Reads some more of the replies, and says whether there was more."""
        begun, asleep, spent = time.monotonic(), 0, self.spent()
        while not select.select([self.process.stdout], [], [], SECONDS_A_LOOK)[0]:
            before, spent = spent, self.spent()
            asleep = asleep + 1 if self.sleeps() and spent == before and not self.is_sending() else 0
            need(asleep < LOOKS, "all threads sleep, and a reply is due")
            need(time.monotonic() - begun < self.patience, f"no reply within {self.patience:.0f} s")
        found = os.read(self.process.stdout.fileno(), 1 << 16)
        self.rest += found
        return bool(found)

    def expect_end(self, status: int) -> None:
        """Wants it to end by itself, which it may take seconds for where the machine is busy."""
        try:
            found = self.process.wait(SECONDS_TO_END)
        except subprocess.TimeoutExpired:
            raise Wrong(f"it had not ended after {SECONDS_TO_END} s") from None
        need(found == status, f"it ended with status {found}, not {status}")

    def spent(self) -> float:
        """The seconds of the processor that it took so far."""
        return _of(Path(f"/proc/{self.process.pid}")).ticks / TICKS

    def sleeps(self) -> bool:
        """Whether each of its threads waits for something."""
        return all(_of(thread).state == "S" for thread in self.threads())

    def threads(self) -> List[Path]:
        return list(Path(f"/proc/{self.process.pid}/task").iterdir())

    def ticks(self) -> Dict[str, int]:
        """Of each worker, by the name of its thread, how many ticks of the processor it took so far."""
        return {it.name: _of(it).ticks for it in self.threads() if it.name != str(self.process.pid)}

    def poll_until(self, holds: Callable[[], bool], fault: str) -> None:
        begun, spent = time.monotonic(), self.spent()
        while not holds():
            need(self.spent() - spent < SECONDS_OF_WORK and time.monotonic() - begun < SECONDS_TO_REPLY, fault)
            time.sleep(0.01)
            self.tell(b"poll\n")
            self.line()

    def poll_until_busy(self, workers: int) -> None:
        """Polls until so many workers are at long steps."""
        before = self.ticks()
        self.work()

        def are_busy() -> bool:
            return sum(ticks >= before[name] + 2 for name, ticks in self.ticks().items()) == workers

        self.poll_until(are_busy, f"{workers} workers aren't at long steps")


class _Task(NamedTuple):
    """What the system tells of a process or a thread: its state, and how many ticks of the processor it took."""

    state: str
    ticks: int


def _of(task: Path) -> _Task:
    try:
        words = (task / "stat").read_text().rpartition(")")[2].split()
    except OSError:  # it has just ended
        return _Task("X", 0)
    return _Task(words[0], int(words[11]) + int(words[12]))


@contextlib.contextmanager
def started(program: str, *words: str, **settings: object) -> Iterator[Session]:
    """The program while a case looks at it, and no longer. Settings are as Popen takes them."""
    session = Session(program, *words, **settings)
    try:
        yield session
    finally:
        session.close()
