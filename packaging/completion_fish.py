"""Writes completions for fish."""
from __future__ import annotations

import re
from typing import List

from completion import CompletedOption, Completion, Values

SIGNS = str.maketrans({"\\": r"\\", "'": r"\'"})
# Of the files and folders that a word may become, those whose names end so; a tab stands behind each.
FILES = r"(__fish_complete_path (commandline -ct) | string match -r '.*(?:{})(?=\t)')"


def fish_script(completion: Completion) -> str:
    """The file that fish reads."""
    lines = [f"# Completes the words of {completion.name} in fish.", _others(completion)]
    return "\n".join(lines + [_option(completion.name, it) for it in completion.options]) + "\n"


def _others(completion: Completion) -> str:
    return " ".join([f"complete -c {completion.name}", *_found(completion.others)])


def _option(name: str, completed: CompletedOption) -> str:
    spellings = [f"-l {it[2:]}" if it.startswith("--") else f"-s {it[1:]}" for it in completed.option.flags]
    values = ["-r", *_found(completed.values)] if completed.has_value else []
    return " ".join([f"complete -c {name}", *spellings, *values, "-d", _quoted(completed.option.text)])


def _found(values: Values) -> List[str]:
    """How fish finds such words."""
    if values.words:
        return ["-f", "-a", _quoted(" ".join(values.words))]
    if values.endings:
        return ["-f", "-a", _quoted(FILES.format("|".join(["/", *(re.escape(f".{it}") for it in values.endings)])))]
    if values.is_file:
        return ["-F"]
    return ["-f", "-a", _quoted("(__fish_complete_directories)")] if values.is_folder else ["-f"]


def _quoted(text: str) -> str:
    return f"'{text.translate(SIGNS)}'"
