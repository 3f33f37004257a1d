"""Files that are given to the page: unpacked, and known by what they say rather than by their names."""
from __future__ import annotations

import re
import zlib
from codecs import BOM_UTF8
from typing import Optional

from ..formats.mcell import is_mcell, rle_of
from ..errors import Trouble

from .document import File

# The most bytes of a file as it comes, and unpacked.
MOST_SENT, MOST_UNPACKED = 128 << 20, 512 << 20


def unpacked(name: str, data: bytes) -> bytes:
    """A file's bytes, unpacked where gzip packed them, without a byte order mark."""
    if data.startswith(b"\x1f\x8b"):
        opened = zlib.decompressobj(wbits=31)
        try:
            data = opened.decompress(data, MOST_UNPACKED)
        except zlib.error as fault:
            raise Trouble(f"{name}: {fault}") from fault
        if not opened.eof:
            raise Trouble(f"{name}: it is cut, or unpacked it has more than {MOST_UNPACKED} bytes")
    return data[len(BOM_UTF8):] if data.startswith(BOM_UTF8) else data


def file_of(name: str, data: bytes) -> Optional[File]:
    """A rule or a pattern, or None for a script."""
    text, bare = unpacked(name, data), re.sub(r"\.gz$", "", name.lower())
    if bare.endswith(".rule") or re.match(rb"\s*@RULE\b", text):
        return File("rule", name, text)
    if bare.endswith(".mc") or text.startswith(b"[M2]"):
        return File("start mc", name, text)
    if is_mcell(text):
        return File("start rle", name, rle_of(text, name))
    if bare.endswith(".rle") or re.search(rb"(?m)^[ \t]*x[ \t]*=", text[:65536]) and not bare.endswith(".script"):
        return File("start rle", name, text)
    return None


def states_of(rule: Optional[File]) -> int:
    """How many states a rule has, as its file says."""
    found = re.search(rb"(?m)^\s*n(?:um)?_states\s*[:=]\s*(\d+)", rule.text) if rule else None
    return max(2, min(int(found[1]), 256)) if found else 256 if rule is None else 2
