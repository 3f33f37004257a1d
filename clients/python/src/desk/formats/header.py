"""The name of a rule in the head of a text."""
from __future__ import annotations

import re


def rule_named_by(text: bytes) -> str:
    """The rule's name that a rule file, a macrocell text or an RLE text carries, or an empty one."""
    found = re.search(rb"(?m)^[ \t]*(?:@RULE |#R[ \t]+|x[ \t]*=[^\n]*?rule[ \t]*=[ \t]*)([^\n]*?)[ \t\r]*$", text)
    return found[1].decode("latin-1") if found else ""
