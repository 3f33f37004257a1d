"""Where a document's rule and start come from."""
from __future__ import annotations

from typing import Optional

from .formats.header import rule_named_by

OPENING_RULE, OPENING_START = "still, under which nothing changes", "no cells"


class Sources:
    """The rule's text as it was taken last, and by what names its file and the start's were given."""

    def __init__(self) -> None:
        self.rule_text = b""
        self._rule_path, self._start_path = "", ""
        self._cells = 0  # how many were named by `set` since the start was taken

    def take(self, line: str, text: Optional[bytes], path: str) -> None:
        """Takes an accepted edit: its command, the text that belongs to it, and the name that the text goes by."""
        kind = line.partition(" ")[0]
        if kind == "rule":
            self.rule_text, self._rule_path = text or b"", path
        elif kind == "start":
            self._start_path, self._cells = path, 0
        elif kind == "set":
            self._cells += line.count(" ") // 3

    @property
    def rule(self) -> str:
        """The rule's name, with what its file goes by."""
        if not self.rule_text:
            return OPENING_RULE
        name = rule_named_by(self.rule_text)
        return name if name == self._rule_path else f"{name}, from {self._rule_path}"

    @property
    def start(self) -> str:
        """What the start's file goes by, and how many cells were set since."""
        if not self._cells:
            return self._start_path or OPENING_START
        cells = "1 cell" if self._cells == 1 else f"{self._cells} cells"
        return f"{self._start_path}, and {cells} set" if self._start_path else f"{cells} set"
