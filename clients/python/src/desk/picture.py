"""Draws the pattern at a generation, as a PNG or as blocks in a terminal.

It asks the program `desk` for the pattern. It is no part of what is proved.
"""
from __future__ import annotations

import argparse
import os
import shutil
import sys
import warnings
from typing import List

from .client import Desk
from .colors import Color, colors_of
from .console import DESK_HELP, command_name, say
from .drawing import picture
from .errors import Pending, Trouble
from .png import png
from .rules.found import rule_of_file
from .run.arguments import generation
from .standard_output import print_line, write
from .words import Window

EXAMPLE = """\
example, in the repository's folder:
  %(prog)s examples/brain.rle --at 100 --png brain.png

exit status:
  0    the picture was written
  1    a file, the program or the generation failed
  2    the words of the command line are refused
  130  it was broken off by Ctrl-C
"""
MOST_PIXELS = 1024  # a side of a PNG, or of letters that go to a file or a pipe


def blocks(rows: List[List[int]], colors: List[Color]) -> str:
    """Two rows a line of a terminal, by half blocks in colors."""
    lines = []
    for upper, lower in zip(rows[::2], [*rows[1::2], [0] * len(rows[0])]):
        pairs = [(*colors[above], *colors[below]) for above, below in zip(upper, lower)]
        cells = ("\033[38;2;{};{};{}m\033[48;2;{};{};{}m▀".format(*pair) for pair in pairs)
        lines.append("".join(cells) + "\033[0m")
    return "\n".join(lines)


def letters(rows: List[List[int]]) -> str:
    """A row a line: a dot for state 0, a digit or letter for the states up to 35, and # for others."""
    signs = ".123456789abcdefghijklmnopqrstuvwxyz"
    return "\n".join("".join(signs[it] if it < len(signs) else "#" for it in row) for row in rows)


def words() -> argparse.Namespace:
    form = argparse.RawDescriptionHelpFormatter
    found = argparse.ArgumentParser(command_name(), description=__doc__, epilog=EXAMPLE, formatter_class=form)
    found.add_argument("rule", metavar="RULE", nargs="?",
                       help="a .rule file, or a rule's name; without it the pattern's header names the rule")
    found.add_argument("pattern", metavar="PATTERN",
                       help="an RLE, macrocell, MCell or Life file, or one packed by gzip")
    found.add_argument("--at", metavar="G", type=generation, required=True,
                       help="the generation, from 0 to 2^60, as 1000, 1e6 or 2^20")
    found.add_argument("--window", metavar=("X", "Y", "W", "H"), type=int, nargs=4,
                       help="W by H cells from (X, Y) to the right and down; without it the bounding box")
    found.add_argument("--png", metavar="FILE", help="writes a PNG there, or with - to standard output; without it the "
                       "picture goes to standard output in letters or blocks")
    found.add_argument("--squares", metavar="N", type=int, help="how many squares an engine may hold, up to 16777216")
    found.add_argument("--desk", metavar="PROGRAM", help=DESK_HELP)
    return found.parse_args()


def main() -> int:
    given = words()
    warnings.showwarning = lambda text, *_: say(str(text))
    window = Window(*given.window) if given.window else None
    is_terminal = sys.stdout.isatty()
    is_colored = is_terminal and "NO_COLOR" not in os.environ and os.environ.get("TERM") != "dumb"
    most = MOST_PIXELS, MOST_PIXELS
    if is_terminal and not given.png:
        screen = shutil.get_terminal_size()
        most = screen.columns, (screen.lines - 2) * (2 if is_colored else 1)
    try:
        rule = rule_of_file(given.pattern, given.rule)
        if not given.rule:
            say(rule.line)
        colors = colors_of(rule.text)
        with Desk(given.desk, given.squares) as desk:
            desk.rule_text(rule.text, rule.path or rule.name)
            desk.start(given.pattern)
            frame, rows = picture(desk, given.at, window, *most)
        if given.png:
            write(given.png, png(rows, colors, max(1, min(16, 512 // max(frame.w, frame.h)))))
        else:
            print_line(blocks(rows, colors) if is_colored else letters(rows))
    except (Trouble, OSError) as fault:
        how = "; --squares N gives the engine more room" if isinstance(fault, Pending) else ""
        say(f"{fault}{how}")
        return 1
    except KeyboardInterrupt:
        say("broken off")
        return 130
    scale = f", {frame.step} by {frame.step} cells a pixel" if frame.step > 1 else ""
    say(f"{frame.w} by {frame.h} from ({frame.x}, {frame.y}){scale}")
    return 0
