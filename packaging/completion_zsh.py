"""Writes completions for zsh."""
from __future__ import annotations

from typing import List

from completion import CompletedOption, Completion, Values

# What zsh reads as a part of what it is told of an option.
SIGNS = str.maketrans({"\\": r"\\", "[": r"\[", "]": r"\]", ":": r"\:"})


def zsh_script(completion: Completion) -> str:
    """The file that zsh reads."""
    told = [line for it in completion.options for line in _options(it)]
    if completion.others != Values():
        told.append(_quoted(f"*:file:{_action(completion.others)}"))
    return f"#compdef {completion.name}\n\n" + " \\\n    ".join(["_arguments -s -S", *told]) + "\n"


def _options(completed: CompletedOption) -> List[str]:
    """What zsh is told of each spelling of an option.

    Help doesn't say which may be given again, so each with a value may. Of another one a spelling excludes the others.
    """
    option, text = completed.option, completed.option.text.translate(SIGNS)
    if not completed.has_value:
        others = f"({' '.join(option.flags)})" if len(option.flags) > 1 else ""
        return [_quoted(f"{others}{flag}[{text}]") for flag in option.flags]
    name = option.value.partition(" [")[0].translate(SIGNS)
    return [_quoted(f"*{flag}[{text}]:{name}:{_action(completed.values)}") for flag in option.flags]


def _action(values: Values) -> str:
    """How zsh finds such words."""
    if values.words:
        return f"({' '.join(values.words)})"
    if values.endings:
        return f'_files -g "*.({"|".join(values.endings)})"'
    if values.is_file:
        return "_files"
    return "_files -/" if values.is_folder else " "


def _quoted(text: str) -> str:
    return "'" + text.replace("'", r"'\''") + "'"
