"""The words of the command `run`."""
from __future__ import annotations

import argparse
import sys

from ..console import DESK_HELP, command_name
from ..sweep.options import share, size, whole
from .arguments import generation, once, repeated
from .asked import joined, shown, written

ABOUT = """Runs a pattern up to a generation, and shows what is there.

The pattern's header names the rule, which is found by its name; --rule gives another one. Or cells at random run under
a rule: `%(prog)s B36/S23 --soup 64 --to 1000`. It asks the program `desk`. It is no part of what is proved.
"""
EXAMPLE = """\
examples, in the repository's folder:
  %(prog)s examples/wire.rle --to 1000
  %(prog)s examples/wire.rle --at '20: 12 2 0' --to 1000 --show counts window 0 0 24 5
  %(prog)s B36/S23 --soup 64 --to 2^20 --out soup.rle.gz --out soup.png

--show takes one view or several:
  counts          how many cells each state has
  rle, mc         the pattern as RLE or macrocell text
  text            its bounding box in characters, a dot for state 0 and the letters of RLE for others
  window X Y W H  the states of W by H cells, from (X, Y) to the right and down
  png             a picture, which needs --out FILE.png

--out writes by the ending of FILE: .rle, .mc, .png, .txt (text) or .csv (counts). With .gz behind it FILE is packed by
gzip, but for pictures.

A generation is a number from 0 to 2^60, and may be written as 1048576, 1_048_576, 1e6 or 2^20.

Exit status:
  0    answered
  1    pending: standard error says why, and what helps. Or the program ended early, or a file can't be written
  2    refused: standard error says where, and what helps. It was a word, a file, the rule, the pattern, or a view
       that is too large to be shown
  130  broken off by Ctrl-C; what is known was shown
  141  whoever read standard output left early
"""


def options() -> argparse.Namespace:
    """What the command line says. `asked` has all that is shown and written, `interventions` all of their kinds."""
    form = argparse.RawDescriptionHelpFormatter
    found = argparse.ArgumentParser(command_name(), description=ABOUT, epilog=EXAMPLE, formatter_class=form)
    add = found.add_argument
    add("pattern", metavar="PATTERN", help="an RLE, macrocell, MCell or Life file (.rle, .mc, .mcl, .lif), or one "
        "packed by gzip; - for standard input; with --soup a rule in its place")
    add("--rule", metavar="R", help="a .rule file, or a rule's name; without it the pattern's header names the rule")
    add("--to", metavar="G", type=generation, required=True, help="the generation")
    add("--show", metavar="VIEW", type=shown, action="append", help="what is shown; see below; else counts")
    add("--out", metavar="FILE", type=written, action="append", default=[], help="writes a file; see below")
    add("--at", metavar="'G: X Y S ..'", type=once, action="append", dest="interventions", default=[],
        help="sets cells at generation G to states, each by x, y and state; y grows downwards")
    add("--every", metavar="'K G H: X Y S ..'", type=repeated, action="append", dest="interventions",
        help="sets cells at generation G and every K later, up to H")
    add("--soup", metavar="N", type=size, help="starts with N by N cells at random, or WxH")
    add("--seed", metavar="N", type=whole, default=1, help="which soup, by a number from 1 on; else 1")
    add("--density", metavar="D", type=share, default=0.3, help="the share of cells that are live, 0 to 1; else 0.3")
    add("--script", action="store_true", help="prints the script for the program in place of running it")
    add("--progress", action="store_true", help="says how far it is also where standard error is no terminal")
    add("--squares", metavar="N", type=int, help="how many squares an engine may hold, up to 16777216")
    add("--workers", metavar="N", type=int, help="how many threads compute, 1 to 8; else 2")
    add("--desk", metavar="PROGRAM", help=DESK_HELP)
    given = found.parse_args(joined(sys.argv[1:]))
    if given.soup and given.rule:
        found.error("with --soup the rule stands in place of the pattern, so there is no --rule")
    views = given.show or [shown("counts")]
    if any(it.kind == "png" for it in views) and not any(it.kind == "png" for it in given.out):
        found.error("--show png needs --out FILE.png")
    given.asked = [it for it in views if it.is_shown] + given.out
    return given
