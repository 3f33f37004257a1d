"""What a desk sends its commands to: a protocol, which a program that runs here fulfils, or what stands for one."""
from __future__ import annotations

from typing import Callable, List, NamedTuple, Optional, Protocol


class Command(NamedTuple):
    """A command of a script: its line, and the text behind it if one follows."""

    line: str
    text: Optional[bytes] = None

    @property
    def kind(self) -> str:
        """The command's name, which is its first word but for the branch that it is of."""
        words = self.line.split(None, 3)
        return words[2] if words[0] == "on" else words[0]

    def sent(self) -> bytes:
        """The bytes that are sent. A text's last line may lack its end, and `end` is a line of its own."""
        line = self.line.encode("latin-1", "replace") + b"\n"
        if self.text is None:
            return line
        return line + self.text + (b"end\n" if self.text.endswith(b"\n") or not self.text else b"\nend\n")


class Reply(NamedTuple):
    """The words of a reply's last line, with the lines before it of a list, or the text behind it of a bookmark."""

    words: List[str]
    text: bytes = b""


Taken = Callable[[Reply], None]


def nothing_kept(reply: Reply) -> None:
    """Takes a reply of which nothing is kept."""


class Transport(Protocol):
    """What a desk's commands go to and their replies come from. Any thread may call it."""

    @property
    def process(self) -> int:
        """The number of the program's process."""

    def ask(self, command: Command, taken: Taken = nothing_kept) -> Reply:
        """Sends a command, waits for its reply and gives it, also where it is one of refusal.

        `taken` gets the reply before the next command is sent, also where this call is broken off.

        Ended: the program ended before it replied.
        Trouble: it was closed, or the reply makes no sense.
        """

    def wait(self, taken: Taken = nothing_kept) -> bool:
        """Waits until no reply is due any more, and calls `taken` then. Where the program is gone it is False."""

    def close(self) -> None:
        """Ends the program, whatever it is at. A second time does nothing."""
