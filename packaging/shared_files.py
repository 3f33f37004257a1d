"""The files of both packages that are made of the commands' help: pages of the manual and completions."""
from __future__ import annotations

from pathlib import Path
from typing import Dict

from commands import commands
from completion import completion_of
from completion_bash import bash_script
from completion_fish import fish_script
from completion_zsh import zsh_script
from man_page import SECTION, man_page
from release import Release


def shared_files(program: Path, release: Release) -> Dict[str, str]:
    """Their texts by their places below `share`, as prefixes of programs have it."""
    found = commands(program)
    names = [it.name for it in found]
    files = {}
    for command in found:
        others = [it for it in names if it != command.name]
        completion = completion_of(command)
        files[f"man/man{SECTION}/{command.name}.{SECTION}"] = man_page(command, others, release)
        files[f"bash-completion/completions/{command.name}"] = bash_script(completion)
        files[f"zsh/site-functions/_{command.name}"] = zsh_script(completion)
        files[f"fish/vendor_completions.d/{command.name}.fish"] = fish_script(completion)
    return files


def lay_shared_files(program: Path, release: Release, folder: Path) -> None:
    """Writes them below a folder."""
    for place, text in shared_files(program, release).items():
        path = folder / place
        path.parent.mkdir(parents=True, exist_ok=True)
        path.write_text(text, encoding="utf-8")
