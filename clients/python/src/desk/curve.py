"""How many cells each state has, from generation 0 up to another: a table, a CSV file, a plot.

It asks the program `desk`. It is no part of what is proved. The table goes to
standard output, and how far it is to standard error. A plot needs matplotlib. What is broken off by
Ctrl-C writes the rows that it has.
"""
from __future__ import annotations

import argparse
import csv
import io
import sys
import time
import warnings
from typing import Iterator, List, Tuple

from .client import Desk
from .console import DESK_HELP, command_name, say
from .errors import Pending, Trouble
from .plot import LACK, can_plot, plotted
from .populations import Row, aligned, generations, table
from .rules.found import rule_of_file
from .run.arguments import generation
from .standard_output import STANDARD_OUTPUT, print_line, write

EXAMPLE = """\
example, in the repository's folder:
  %(prog)s examples/brain.rle --to 256 --points 17 --csv brain.csv

exit status:
  0    all rows were computed and written
  1    a file, the program or a generation failed, or there is no matplotlib for the plot; the rows that there are were
       written
  2    the words of the command line are refused
  130  it was broken off by Ctrl-C, and the rows that there are were written
"""
REMEDIES = {
    70: "memory ran out",
    71: "a step needs more squares than it may keep: --squares N allows more, and more --points make shorter steps",
    73: "the numbers of jobs are spent",
}
BROKEN_OFF = 130  # the exit status after Ctrl-C, as shells have it


def rows(desk: Desk, at: List[int]) -> Iterator[Row]:
    """The row of each generation as soon as it is there; the desk goes on from the one before."""
    for it in at:
        yield it, desk.show(desk.mark(it, "counts"))


def told(found: Iterator[Row], count: int) -> Iterator[Row]:
    """The same rows; standard error tells how many of the bookmarks are current, and the time to go."""
    began, shown, is_screen = time.monotonic(), 0.0, sys.stderr.isatty()
    for done, row in enumerate(found, 1):
        yield row
        passed = time.monotonic() - began
        if done == count or passed > shown + (0.2 if is_screen else 5):
            shown = passed
            to_go = passed / done * (count - done)
            text = f"{done} of {count} bookmarks are current, about {to_go:.0f} s to go"
            say(text, "" if is_screen and done < count else "\n")


def plot(found: List[Row], path: str, title: str) -> None:
    """Draws a curve for each state that is ever there."""
    write(path, plotted(found, title, (9, 5), 110))


def words() -> argparse.Namespace:
    form = argparse.RawDescriptionHelpFormatter
    found = argparse.ArgumentParser(command_name(), description=__doc__, epilog=EXAMPLE, formatter_class=form)
    found.add_argument("rule", metavar="RULE", nargs="?",
                       help="a .rule file, or a rule's name; without it the pattern's header names the rule")
    found.add_argument("pattern", metavar="PATTERN",
                       help="an RLE, macrocell, MCell or Life file, or one packed by gzip")
    found.add_argument("--to", metavar="G", type=generation, required=True,
                       help="the last generation, up to 2^60, as 1000, 1e6 or 2^20")
    found.add_argument("--points", metavar="N", type=int, default=33, help="how many generations, 2 to 4096; else 33")
    found.add_argument("--csv", metavar="FILE", help="writes the table there too, with commas; - is standard output")
    found.add_argument("--png", metavar="FILE", help="writes a plot there; - is standard output")
    found.add_argument("--squares", metavar="N", type=int, help="how many squares an engine may hold, up to 16777216")
    found.add_argument("--desk", metavar="PROGRAM", help=DESK_HELP)
    given = found.parse_args()
    if not 2 <= given.points <= 4096:
        found.error("--points is a number from 2 to 4096")
    if given.csv == given.png == STANDARD_OUTPUT:
        found.error("--csv and --png can't both go to standard output")
    return given


def computed(given: argparse.Namespace) -> Tuple[List[Row], str, int]:
    """The rows that could be computed, why there are no more, or nothing, and the exit status."""
    found: List[Row] = []
    at = generations(given.to, given.points)
    rule = rule_of_file(given.pattern, given.rule)
    if not given.rule:
        say(rule.line)
    try:
        with Desk(given.desk, given.squares) as desk:
            desk.rule_text(rule.text, rule.path or rule.name)
            if desk.start(given.pattern):
                say("the pattern's own generation isn't used, generations count from 0")
            try:
                for row in told(rows(desk, at), len(at)):
                    found.append(row)
            except Pending:
                cause = desk.settle().cause or 0
                lack = f"generation {at[len(found)]} isn't computed: {REMEDIES.get(cause, f'cause {cause}')}"
                return found, lack, 1
    except KeyboardInterrupt:
        return found, f"broken off with {len(found)} of {len(at)} bookmarks, {reached(found)}", BROKEN_OFF
    return found, "", 0


def reached(found: List[Row]) -> str:
    """How far the rows go, in words."""
    return f"up to generation {found[-1][0]}" if found else "no generation"


def written(given: argparse.Namespace) -> int:
    """Computes the rows and writes what there is of them, and gives the exit status."""
    is_plotted = not given.png or can_plot()
    if not is_plotted:
        say(f"{LACK}, so there will be no plot")
    found, lack, status = computed(given)
    lines = table(found)
    if STANDARD_OUTPUT not in (given.csv, given.png):
        print_line(aligned(lines))
    if given.csv:
        text = io.StringIO(newline="")
        csv.writer(text, lineterminator="\n").writerows(lines)
        write(given.csv, text.getvalue().encode())
    if given.png and is_plotted:
        plot(found, given.png, given.pattern)
    if lack:
        say(lack)
    return status or (0 if is_plotted else 1)


def main() -> int:
    given = words()
    warnings.showwarning = lambda text, *_: say(str(text))
    try:
        return written(given)
    except (Trouble, OSError) as fault:
        say(str(fault))
        return 1
    except KeyboardInterrupt:
        say("broken off while writing")
        return BROKEN_OFF
