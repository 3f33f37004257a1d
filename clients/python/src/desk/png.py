"""Pictures as PNG files with a palette, without any library for them."""
from __future__ import annotations

import struct
import zlib
from typing import Sequence

from .colors import Color

BEGINNING = b"\x89PNG\r\n\x1a\n"


def png(rows: Sequence[Sequence[int]], colors: Sequence[Color], zoom: int = 1) -> bytes:
    """A PNG of rows of states, each as zoom by zoom pixels in the color of that number, of which 256 may be given."""

    def chunk(kind: bytes, data: bytes) -> bytes:
        return struct.pack(">I", len(data)) + kind + data + struct.pack(">I", zlib.crc32(kind + data))

    lines = b"".join((b"\0" + bytes(it for it in row for _ in range(zoom))) * zoom for row in rows)
    head = struct.pack(">IIBBBBB", len(rows[0]) * zoom, len(rows) * zoom, 8, 3, 0, 0, 0)
    palette = bytes(it for color in colors for it in color)
    parts = (b"IHDR", head), (b"PLTE", palette), (b"IDAT", zlib.compress(lines, 9)), (b"IEND", b"")
    return BEGINNING + b"".join(chunk(*it) for it in parts)


def write_png(path: str, rows: Sequence[Sequence[int]], colors: Sequence[Color], zoom: int) -> None:
    """Writes rows of states as a PNG, each state as zoom by zoom pixels."""
    with open(path, "wb") as file:
        file.write(png(rows, colors, zoom))
