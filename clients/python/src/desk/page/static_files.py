"""The files that a browser gets: the page's own, and the editor CodeMirror where Debian's package is installed."""
from __future__ import annotations

import os
from pathlib import Path
from typing import Optional

STATIC = Path(__file__).resolve().parent / "static"
# Where libjs-codemirror has it; the environment's DESK_CODEMIRROR names another folder.
CODEMIRROR = "/usr/share/javascript/codemirror"
OF_CODEMIRROR = "codemirror.js", "codemirror.css"


def file_named(name: str) -> Optional[bytes]:
    """The bytes of a file, or None where there is none of that name.

    CodeMirror's files are empty where it isn't installed.
    """
    if name in OF_CODEMIRROR:
        path = Path(os.environ.get("DESK_CODEMIRROR", CODEMIRROR)) / name
        return path.read_bytes() if path.is_file() else b""
    files = {it.name: it for it in STATIC.iterdir()}
    return files[name].read_bytes() if name in files else None
