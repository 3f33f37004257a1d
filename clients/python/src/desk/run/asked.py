"""What is asked for: views that are shown, and files that are written, by words of the command line."""
from __future__ import annotations

import os
from argparse import ArgumentTypeError
from typing import Dict, List, NamedTuple, Sequence

from ..errors import Malformed
from ..words import View, checked_view

# What can be asked for, by the view of the bookmark from which it is made.
SHOWN: Dict[str, View] = {"counts": "counts", "rle": "rle", "mc": "mc", "text": "rle", "png": "mc"}
WRITTEN = {".rle": "rle", ".mc": "mc", ".png": "png", ".txt": "text", ".csv": "csv"}
PACKED = ".gz"


class Asked(NamedTuple):
    """One thing that is asked for.

    kind: `counts`, `rle`, `mc`, `window`, `text`, `png` or `csv`
    view: the view of the bookmark from which it is made
    path: the file that is written, or empty where it is shown
    """

    kind: str
    view: View
    path: str = ""

    @property
    def is_shown(self) -> bool:
        """Whether it goes to standard output. A picture doesn't."""
        return not self.path and self.kind != "png"

    @property
    def name(self) -> str:
        """What it is called in messages: the file, or the words of the view."""
        return self.path or (self.kind if isinstance(self.view, str) else "window {} {} {} {}".format(*self.view))


def shown(text: str) -> Asked:
    """What `counts`, `rle`, `mc`, `text`, `png` or `window X Y W H` asks for."""
    kind, *numbers = text.split()
    try:
        if kind == "window":
            return Asked(kind, checked_view([int(it) for it in numbers]))
        if not numbers:
            return Asked(kind, SHOWN[kind])
    except (KeyError, ValueError, Malformed):
        pass
    raise ArgumentTypeError(f"{text!r}: take counts, rle, mc, text, png, or window and the numbers X Y W H")


def written(path: str) -> Asked:
    """What a file asks for by its ending. Its folder has to be there."""
    bare = path[:-len(PACKED)] if path.endswith(PACKED) else path
    kind = WRITTEN.get(os.path.splitext(bare)[1], "")
    if not kind or kind == "png" and bare != path:
        raise ArgumentTypeError(
            f"{path!r}: its ending says what is written: {', '.join(WRITTEN)}; with {PACKED} behind it the file is "
            "packed by gzip, but no .png")
    folder = os.path.dirname(path) or "."
    if not os.path.isdir(folder):
        raise ArgumentTypeError(f"{path!r}: there is no folder {folder}")
    if os.path.isdir(path):
        raise ArgumentTypeError(f"{path!r}: it is a folder")
    return Asked(kind, "counts" if kind == "csv" else SHOWN[kind], path)


def joined(words: Sequence[str]) -> List[str]:
    """The words, with each view behind `--show` made one word with it, as `--show=window 0 0 5 1`.

    So a view may have several words, several views may follow one `--show`, and a pattern may follow them.
    """
    found, left = [], list(words)
    while left:
        word = left.pop(0)
        if word != "--show" or not left or left[0] not in (*SHOWN, "window"):
            found.append(word)
            continue
        while left and left[0] in (*SHOWN, "window"):
            count = 5 if left[0] == "window" else 1
            found.append(f"--show={' '.join(left[:count])}")
            del left[:count]
    return found
