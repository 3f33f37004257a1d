"""The commands that packages install, with what their `--help` says."""
from __future__ import annotations

import dataclasses
import os
import re
from pathlib import Path
from typing import Dict, List

from help_text import Help, read_help
from places import NAME, PYTHON, PYTHON_PROJECT, Lacking, run

# The commands of the package in Python, each with the module and the function that it calls.
SCRIPT = re.compile(r'^(desk-[\w-]+) = "([\w.]+):(\w+)"$', re.M)
CALL = "import sys; sys.argv = [{name!r}, '--help']; from {module} import {function}; {function}()"
# No line of a help is so long. Where argparse breaks one, it breaks words with hyphens too.
COLUMNS = 10_000


@dataclasses.dataclass(frozen=True)
class Command:
    """A command by its name, and its help."""

    name: str
    help: Help

    @property
    def summary(self) -> str:
        """What it does, as a part of a sentence: `draws the pattern at a generation`."""
        said = self.help.about[0].text.rstrip(".")
        return said[0].lower() + said[1:]


def help_texts(program: Path, columns: int = COLUMNS) -> Dict[str, str]:
    """The help of each command by its name, in lines of at most so many columns where argparse writes it.

    Lacking: one of them doesn't say it.
    """
    project = (PYTHON_PROJECT / "pyproject.toml").read_text(encoding="utf-8")
    environment = {**os.environ, "PYTHONPATH": str(PYTHON_PROJECT / "src"), "PYTHONDONTWRITEBYTECODE": "1",
                   "COLUMNS": str(columns), "LC_ALL": "C.UTF-8"}
    texts = {NAME: run([str(program), "--help"])}
    for name, module, function in SCRIPT.findall(project):
        call = CALL.format(name=name, module=module, function=function)
        texts[name] = run([PYTHON, "-c", call], environment=environment)
    return texts


def commands(program: Path) -> List[Command]:
    """The program and the commands of the package in Python.

    Lacking: one of them doesn't say its help, or none that can be read.
    """
    try:
        return [Command(name, read_help(text)) for name, text in help_texts(program).items()]
    except ValueError as fault:
        raise Lacking(f"a command's --help can't be read: {fault}") from fault
