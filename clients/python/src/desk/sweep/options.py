"""The words of the command `sweep`."""
from __future__ import annotations

import argparse
import re
from typing import Tuple

from ..console import DESK_HELP, command_name
from ..run.arguments import generation
from ..standard_output import STANDARD_OUTPUT
from .census import COLUMNS

ABOUT = """Runs soups under rules, and writes a row for each to a file that a broken-off sweep is gone on with.

It asks the program `desk`, several of them at once, here or on the machines of a Dask cluster. It is no part of what
is proved. Rows go to the file as they are ready, how far it is to standard error, and at the end what came out to
standard output. The modules `soups` and `fates` say what a soup and what a fate is.
"""
EXAMPLE = """\
examples, in the repository's folder:
  %(prog)s --rule B3/S23 B36/S23 --soup 200 --size 64 --to 5000 --out found.csv
  %(prog)s --rule '/usr/share/golly/Rules/*.rule' --soup 20 --size 32 --density 0.3 --to 1000 \\
      --show counts,period,box --limit 10 --out golly.csv

--show takes words with commas between:
  counts  the number of live cells, and of the cells of each state as STATE:CELLS
  period  the fate at the last generation, and the period. died: no cell is live. still: nothing changes. periodic:
          the pattern comes again after so many generations, up to 121. moving: the numbers of cells come again, and
          the pattern doesn't, as where ships fly away. open: none of these
  box     width and height of the least rectangle that holds all live cells, and by how many cells a generation its
          longer side grew in the second half
  curve   the number of live cells at some generations, as GENERATION:CELLS

A case that fails has a row too, with its cause: refused, out of time, out of squares, out of memory, ended.
The same command goes on where it was broken off.

exit status:
  0    all cases have a row
  1    a file or the program failed
  2    the words of the command line are refused
  130  it was broken off by Ctrl-C or SIGTERM
"""


def numbers(text: str) -> range:
    """The seeds that `200` or `201-400` names."""
    found = re.fullmatch(r"(?:(\d+)-)?(\d+)", text)
    seeds = range(int(found[1] or 1), int(found[2]) + 1) if found else range(0)
    if not seeds:
        raise argparse.ArgumentTypeError(f"{text!r}: take a number, as 200, or the first and the last seed, as 201-400")
    return seeds


def size(text: str) -> Tuple[int, int]:
    """The width and the height that `64` or `64x32` names."""
    found = re.fullmatch(r"(\d+)(?:x(\d+))?", text)
    sides = (int(found[1]), int(found[2] or found[1])) if found else (0, 0)
    if not all(1 <= it <= 4096 for it in sides):
        told_of = "take a side of 1 to 4096, as 64, or a width and a height, as 64x32"
        raise argparse.ArgumentTypeError(f"{text!r}: {told_of}")
    return sides


def share(text: str) -> float:
    try:
        found = float(text)
    except ValueError:
        found = -1.0
    if not 0 <= found <= 1:
        raise argparse.ArgumentTypeError(f"{text!r}: take a number from 0 to 1")
    return found


def positive(text: str) -> float:
    try:
        found = float(text)
    except ValueError:
        found = 0.0
    if not 0 < found < 1e8:
        raise argparse.ArgumentTypeError(f"{text!r}: take a number above 0")
    return found


def whole(text: str) -> int:
    if not re.fullmatch(r"[1-9]\d{0,8}", text):
        raise argparse.ArgumentTypeError(f"{text!r}: take a whole number from 1 on")
    return int(text)


def states(text: str) -> str:
    if text != "all" and not re.fullmatch(r"[1-9]\d*(,[1-9]\d*)*", text):
        raise argparse.ArgumentTypeError(f"{text!r}: take `all`, or states with commas between, as 1,2")
    return text


def shown(text: str) -> Tuple[str, ...]:
    found = tuple(it for it in COLUMNS if it in text.split(","))
    if not found or set(text.split(",")) - set(COLUMNS):
        raise argparse.ArgumentTypeError(f"{text!r}: take words of {', '.join(COLUMNS)} with commas between")
    return found


def options() -> argparse.Namespace:
    form = argparse.RawDescriptionHelpFormatter
    found = argparse.ArgumentParser(command_name(), description=ABOUT, epilog=EXAMPLE, formatter_class=form)
    add = found.add_argument
    add("--rule", metavar="RULE", nargs="+", required=True,
        help="files, patterns of files such as 'rules/*.rule', or names such as B3/S23, B2/S/C3 and B2ce3-i/S23")
    add("--soup", metavar="N", type=numbers, required=True, help="the seeds 1 to N, or A-B")
    add("--size", metavar="W", type=size, default=(64, 64), help="so many cells a side, or WxH; else 64")
    add("--density", metavar="D", type=share, default=0.3, help="the share of cells that are live, 0 to 1; else 0.3")
    add("--states", metavar="S", type=states, default="all",
        help="the states of live cells, as 1,2; else all of the rule")
    add("--to", metavar="G", type=generation, required=True, help="the last generation, up to 2^60, as 1000 or 2^20")
    add("--show", metavar="WORDS", type=shown, default=("counts",), help="what a row shows; see below; else counts")
    add("--out", metavar="FILE", required=True,
        help="the file of rows; a sweep that was broken off goes on with it. With - rows go to standard output, and at "
        "the end what came out to standard error")
    add("--again", action="store_true", help="takes away the rows that have a cause, and runs their cases again")
    add("--keep", metavar="FOLDER", help="writes soups with rare fates and what they became there, as RLE")
    add("--rare", metavar="N", type=whole, default=1, help="a fate is rare that came out up to N times a rule; else 1")
    add("--jobs", metavar="N", type=whole,
        help="how many programs at once, else as many as there are processors; with --dask, how many tasks are out")
    add("--limit", metavar="SECONDS", type=positive, help="the longest that a case may take")
    add("--squares", metavar="N", type=whole, help="how many squares an engine may hold, up to 16777216")
    add("--dask", metavar="ADDRESS", help="the scheduler of a Dask cluster, as tcp://host:8786, whose workers do it")
    add("--desk", metavar="PROGRAM", help=DESK_HELP)
    given = found.parse_args()
    if given.again and given.out == STANDARD_OUTPUT:
        found.error("--again needs a file of rows")
    if given.keep and "period" not in given.show:
        found.error("--keep needs `period` among the words of --show, which says the fates")
    return given
