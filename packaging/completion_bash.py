"""Writes completions for bash."""
from __future__ import annotations

from typing import Dict, List

from completion import Completion, Values

SCRIPT = """\
# Completes the words of {name} in bash.

{function}()
{{
    local word=${{COMP_WORDS[COMP_CWORD]}} before=${{COMP_WORDS[COMP_CWORD - 1]}} ending
    # An option, a sign of equality and a value are three words here.
    if [[ $word == = ]]; then
        word=
    elif [[ $before == = ]]; then
        before=${{COMP_WORDS[COMP_CWORD - 2]}}
    fi
    COMPREPLY=()
    case $before in
{cases}    esac
    if [[ $word == -* ]]; then
        mapfile -t COMPREPLY < <(compgen -W '{flags}' -- "$word")
        return
    fi
{others}}}
complete -F {function} {name}
"""
CASE = """\
        {flags})
{reply}            return
            ;;
"""


def bash_script(completion: Completion) -> str:
    """The file that bash reads."""
    flags: Dict[Values, List[str]] = {}
    for it in completion.options:
        if it.has_value:
            flags.setdefault(it.values, []).extend(it.option.flags)
    cases = "".join(CASE.format(flags=" | ".join(them), reply=_reply(values, 12)) for values, them in flags.items())
    return SCRIPT.format(name=completion.name, function=f"_{completion.name.replace('-', '_')}", cases=cases,
                         flags=" ".join(flag for it in completion.options for flag in it.option.flags),
                         others=_reply(completion.others, 4))


def _reply(values: Values, indent: int) -> str:
    """The lines that set COMPREPLY to what a word may become."""
    lines = ["compopt -o filenames 2> /dev/null"] if values.is_file or values.is_folder else []
    if values.words:
        lines.append(f"mapfile -t COMPREPLY < <(compgen -W '{' '.join(values.words)}' -- \"$word\")")
    elif values.endings:
        lines += ['mapfile -t COMPREPLY < <(compgen -d -- "$word")', f"for ending in {' '.join(values.endings)}; do",
                  '    mapfile -t -O ${#COMPREPLY[@]} COMPREPLY < <(compgen -f -X "!*.$ending" -- "$word")', "done"]
    elif values.is_file:
        lines.append('mapfile -t COMPREPLY < <(compgen -f -- "$word")')
    elif values.is_folder:
        lines.append('mapfile -t COMPREPLY < <(compgen -d -- "$word")')
    return "".join(f"{' ' * indent}{it}\n" for it in lines)
