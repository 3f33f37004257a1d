"""A running program `desk` that one task of asyncio owns: commands go in turn, and each gets its own reply."""
from __future__ import annotations

import asyncio
from contextlib import suppress
from typing import Callable, List, NamedTuple, Sequence

from ..errors import Ended
from ..program import began_badly, not_started
from ..sweep.retelling import memory_of

# A reply's line is short, but for the lines of `list`, which name a window.
LONGEST_LINE = 1 << 16


class Reply(NamedTuple):
    """The words of a reply's line, the text of a bookmark that is shown, and the lines of a list before it."""

    words: List[str]
    text: bytes = b""
    lines: Sequence[List[str]] = ()


class Program:
    """A program that answers. Nothing here waits for computing: `settle` and `show` are never sent."""

    def __init__(self, process: asyncio.subprocess.Process, ended: Callable[[], None]) -> None:
        assert process.stdin and process.stdout and process.stderr  # all three are pipes
        self._process, self._input, self._output = process, process.stdin, process.stdout
        self._errors = process.stderr
        self._waits = asyncio.create_task(process.wait())
        self._waits.add_done_callback(lambda _: ended())
        self._turn = asyncio.Lock()
        self._is_cut = False

    @classmethod
    async def begin(cls, words: List[str], ended: Callable[[], None]) -> Program:
        """Starts the program, in a session of its own, so that Ctrl-C in a terminal doesn't reach it.

        ended: called when the process ends, for whatever reason

        Malformed: it refused its options. Ended: it ended for another cause. Trouble: it can't be started.
        """
        pipe = asyncio.subprocess.PIPE
        try:
            program = cls(await asyncio.create_subprocess_exec(
                *words, stdin=pipe, stdout=pipe, stderr=pipe, start_new_session=True, limit=LONGEST_LINE), ended)
        except OSError as fault:
            raise not_started(words[0], fault) from fault
        try:
            await program.ask(b"list\n")
        except Ended as bad:
            raise began_badly(bad) from None
        return program

    @property
    def pid(self) -> int:
        """The process's number."""
        return self._process.pid

    @property
    def memory(self) -> int:
        """How many bytes of memory it takes, or 0 where the system doesn't tell."""
        return memory_of(self.pid)

    @property
    def has_ended(self) -> bool:
        """Whether nothing can be asked any more: it ended, or a reply was broken off (or is under way)."""
        return self._is_cut or self._process.returncode is not None

    async def ask(self, sent: bytes) -> Reply:
        """Sends a command with its text, and gives its reply. A program that ended is `Ended`."""
        async with self._turn:
            if self._is_cut:
                raise Ended("a reply was broken off")
            self._is_cut = True  # unless the whole reply comes
            try:
                self._input.write(sent)
                await self._input.drain()
                reply = await self._reply()
            except (OSError, EOFError) as fault:
                said, status = (await self._errors.read()).decode(errors="replace").strip(), await self._process.wait()
                why = f"the program ended with status {status}{said and ': '}{said}"
                raise Ended(why, status, said) from fault
            self._is_cut = False
            return reply

    async def end(self) -> None:
        """Ends the program, whatever it is at. A second time does nothing."""
        if self._process.returncode is None:
            with suppress(ProcessLookupError):
                self._process.kill()
        await self._process.wait()
        with suppress(OSError):
            self._input.close()
            await self._input.wait_closed()

    async def _line(self) -> List[str]:
        return (await self._output.readuntil(b"\n")).decode("latin-1").split()

    async def _reply(self) -> Reply:
        lines = []
        while True:
            words = await self._line()
            if words[0] in ("branch", "intervention") or words[0] == "bookmark" and words[2] == "on":
                lines.append(words)
            elif words[0] == "bookmark" and words[2] == "current":
                return Reply(words, await self._output.readexactly(int(words[3])))
            else:
                return Reply(words, b"", lines)
