"""A second rule in a saved script, as comments at its end: the program passes over them, and the page reads them."""
from __future__ import annotations

from typing import Optional
from urllib.parse import quote_from_bytes, unquote_to_bytes

from .document import Document, File, script_of

HEAD, LINE = b"#second-rule ", b"#| "
ABOUT = b"# The page shows the same under a second rule, whose name and text follow.\n"
PLAIN = bytes(it for it in range(32, 127) if it != ord("%")).decode()


def whole_script_of(document: Document) -> bytes:
    """The script that makes a document, with its second rule."""
    return script_of(document) + (_comments(document.second) if document.second else b"")


def second_rule_in(script: bytes) -> Optional[File]:
    """The second rule at the end of a script, or None where there is none."""
    _, is_there, rest = script.rpartition(b"\n" + HEAD)
    name, *lines = [it.rstrip(b"\r") for it in rest.rstrip(b"\r\n").split(b"\n")]
    if not is_there or not lines or not all(it.startswith(LINE.rstrip()) for it in lines):
        return None
    return File("rule", unquote_to_bytes(name).decode(errors="replace"),
                b"\n".join(unquote_to_bytes(it[len(LINE):]) for it in lines))


def _comments(rule: File) -> bytes:
    lines = [LINE + _quoted(it) + b"\n" for it in rule.text.split(b"\n")]
    return ABOUT + HEAD + _quoted(rule.name.encode()) + b"\n" + b"".join(lines)


def _quoted(line: bytes) -> bytes:
    """A line with what no line of a script should have as percent signs and digits."""
    return quote_from_bytes(line, PLAIN).encode()
