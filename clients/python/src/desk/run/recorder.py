"""The script of an experiment, written down in place of being run."""
from __future__ import annotations

from typing import Dict, List

from ..transport import Command, Reply, Taken, nothing_kept

IDS = {"at": "intervention", "every": "intervention", "mark": "bookmark"}


class Recorder:
    """A `Transport` that writes down what it is sent, and replies as a new program that refuses nothing."""

    process = 0

    def __init__(self) -> None:
        self._sent: List[bytes] = []
        self._last: Dict[str, int] = dict.fromkeys(IDS.values(), 0)  # id of each kind

    def ask(self, command: Command, taken: Taken = nothing_kept) -> Reply:
        """Writes an edit down, with the id that it gets."""
        words = ["ok", str(len(self._sent) + 1)]
        self._sent.append(command.sent())
        if command.kind == "start":
            words += ["gen", "0"]
        elif command.kind in IDS:
            kind = IDS[command.kind]
            self._last[kind] += 1
            words += [kind, str(self._last[kind])]
            self._sent[-1] += f"# {kind} {self._last[kind]}\n".encode()
        reply = Reply(words)
        taken(reply)
        return reply

    def wait(self, taken: Taken = nothing_kept) -> bool:
        """No reply is ever due."""
        taken(Reply([]))
        return True

    def close(self) -> None:
        """There is nothing to close."""

    def script(self) -> bytes:
        """The edits, and a command that shows each bookmark."""
        shows = "".join(f"show {it}\n" for it in range(1, self._last["bookmark"] + 1))
        return b"".join(self._sent) + shows.encode()
