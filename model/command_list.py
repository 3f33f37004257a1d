"""The list of a script's commands. It is a text, and no definition, so it is read where it stands."""
from __future__ import annotations

import os
import re
from functools import lru_cache

TOP = os.path.dirname(os.path.dirname(os.path.realpath(__file__)))
SOURCE = f"{TOP}/crates/script_help/src/commands.rt"


@lru_cache(maxsize=None)
def command_list() -> bytes:
    """Its bytes: those of a constant in which nothing is escaped but the end of its first line."""
    with open(SOURCE, "rb") as source:
        found = re.findall(rb'const COMMANDS: &str = "\\\n([^"\\]*)";', source.read())
    if len(found) != 1:
        raise ValueError(f"{SOURCE} has no list of commands")
    return bytes(found[0])
