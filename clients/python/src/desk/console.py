"""What the commands say on standard error, each line with the name by which the command was called."""
from __future__ import annotations

import os
import sys

DESK_HELP = "the program; without it the one that DESK names, or that is built or installed here"


def command_name() -> str:
    """The name by which the running command was called: `curve.py`, `desk-curve` or `desk curve`."""
    return os.path.basename(sys.argv[0])


def say(text: str, end: str = "\n") -> None:
    """Writes a line to standard error, in a terminal over the line of progress that may stand there."""
    clear = "\r\033[K" if sys.stderr.isatty() else ""
    print(f"{clear}{command_name()}: {text}", end=end, file=sys.stderr, flush=True)
