"""Files as bytes, whatever they were packed by."""
from __future__ import annotations

import gzip
import sys
import zlib
from codecs import BOM_UTF8
from pathlib import Path
from typing import Callable

from ..errors import Trouble


def text_of(path: str) -> bytes:
    """A file's bytes, unpacked where gzip packed them, without a byte order mark."""
    return _text(lambda: Path(path).read_bytes(), path)


def standard_input() -> bytes:
    """The bytes of standard input, likewise."""
    return _text(lambda: sys.stdin.buffer.read() if sys.stdin else b"", "standard input")


def _text(read: Callable[[], bytes], name: str) -> bytes:
    try:
        found = read()
        found = gzip.decompress(found) if found.startswith(b"\x1f\x8b") else found
    except (OSError, EOFError, zlib.error) as fault:
        raise Trouble(f"{name}: {getattr(fault, 'strerror', None) or fault}") from fault
    return found[len(BOM_UTF8):] if found.startswith(BOM_UTF8) else found
