"""`python3 -m desk COMMAND ..`: the commands of the package."""
from __future__ import annotations

import sys
from importlib import import_module

COMMANDS = {
    "run": ("desk.run.command", "runs a pattern up to a generation, and shows what is there"),
    "page": ("desk.page.command", "shows an experiment in a browser, where it is revised too"),
    "sweep": ("desk.sweep.command", "runs soups under rules, and writes a row for each"),
    "curve": ("desk.curve", "tells how many cells each state has, from generation 0 up to another"),
    "picture": ("desk.picture", "draws the pattern at a generation"),
    "lines": ("desk.lines", "tells which lines of a rule fire while a pattern evolves"),
}
HELP = """\
usage: python3 -m desk COMMAND ...

commands:
{}

`python3 -m desk COMMAND --help` says more of each.
""".format("\n".join(f"  {name:8} {what}" for name, (_, what) in COMMANDS.items()))


def main() -> int:
    """Calls the command that the first word names."""
    name, *words = sys.argv[1:] or [""]
    if name in ("-h", "--help"):
        print(HELP, end="")
        return 0
    if name not in COMMANDS:
        why = f"there is no command {name!r}" if name else "a command is missing"
        print(f"desk: {why}; there are {', '.join(COMMANDS)}", file=sys.stderr)
        return 2
    sys.argv = [f"desk {name}", *words]
    status: int = import_module(COMMANDS[name][0]).main()
    return status


if __name__ == "__main__":
    sys.exit(main())
