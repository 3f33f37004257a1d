"""Standard output, also in place of a file, to which all of a text is written or an error is raised."""
from __future__ import annotations

import errno
import os
import sys
from contextlib import contextmanager, suppress
from typing import Iterator

STANDARD_OUTPUT = "-"  # in place of a file's name


def print_bytes(text: bytes) -> None:
    """Writes to standard output.

    OSError: it can't be written to. BrokenPipeError: whoever read it has left. In both cases what is left in the buffer
    is dropped, since the interpreter would try it once more at its end and give an exit status of its own.
    """
    with _dropping_what_fails():
        sys.stdout.buffer.write(text)
        sys.stdout.buffer.flush()


def print_line(text: str) -> None:
    """Writes lines of text to standard output, and their last line's end, with the same errors."""
    with _dropping_what_fails():
        sys.stdout.write(f"{text}\n")
        sys.stdout.flush()


def write(path: str, data: bytes) -> None:
    """Writes a file, or to standard output in its place, with the same errors."""
    if path == STANDARD_OUTPUT:
        print_bytes(data)
        return
    with open(path, "wb") as file:
        file.write(data)


@contextmanager
def _dropping_what_fails() -> Iterator[None]:
    """Lets what is written next to standard output go nowhere where something couldn't be written."""
    if sys.stdout is None:
        raise OSError(errno.EBADF, "it is closed")
    try:
        yield
    except OSError:
        with suppress(OSError):
            nowhere = os.open(os.devnull, os.O_WRONLY)
            os.dup2(nowhere, sys.stdout.fileno())
            os.close(nowhere)
        raise
