"""Which lines of a rule fire while a pattern evolves: for how many cells each line decided, and which never did.

It asks the program `desk` for the pattern at each generation, reads the rule once more to find the line that decides
each cell, and compares what that gives with the program's next generation. It is no part of what is proved. The table
goes to standard output, and how far it is to standard error. What is broken off by Ctrl-C writes what it has counted.
"""
from __future__ import annotations

import argparse
import sys
import time
import warnings
from itertools import islice
from typing import Iterator, List, NamedTuple, Sequence, Tuple

from .client import Desk
from .console import DESK_HELP, command_name, say
from .errors import Pending, Refused, Trouble
from .formats.cells import cells_of
from .rules.fires import Fires
from .rules.fires_table import table_text
from .rules.found import Found, rule_of_file
from .rules.neighborhoods import PLACES
from .rules.reader import Rule, rule_of
from .rules.surroundings import OFFSETS, World
from .standard_output import print_line

EXAMPLE = """\
example, in the repository's folder:
  %(prog)s examples/wire.rle --to 100

A line of @TABLE fires for a cell if it decides the cell's next state, and a node of @TREE if the way to the next state
leads through it. Cells that see nothing live aren't counted.

exit status:
  0    all generations were counted
  1    a file, the rule or a generation failed, or the program's next generation is another than the rule gives here
  2    the words of the command line are refused
  130  it was broken off by Ctrl-C, and what it had counted was written
"""
REMEDIES = {
    70: "memory ran out",
    71: "a step needs more squares than it may keep; --squares N allows more",
    73: "the numbers of jobs are spent",
}
BROKEN_OFF = 130  # the exit status after Ctrl-C, as shells have it
BATCH = 64  # bookmarks that the program has at a time
NOTHING: World = {}
MOST_UNMATCHED = 20  # that are listed where nothing else is asked for


class Differs(Trouble):
    """The program's next generation isn't what the rule gives as it is read here, so no counts can be believed."""


class Step(NamedTuple):
    """A generation, the program's pattern there, and its pattern one generation later."""

    generation: int
    before: World
    after: World


class Counted(NamedTuple):
    """What was counted, why there is no more, or nothing, and the exit status."""

    fires: Fires
    lack: str
    status: int


def steps(desk: Desk, generations: Sequence[int]) -> Iterator[Step]:
    """The steps from these generations, which rise, each as soon as it is there.

    Pending: a pattern couldn't be computed.
    """
    patterns = _patterns(desk, _each_once(at for first in generations for at in (first, first + 1)))
    generation, pattern = -1, NOTHING
    for first in generations:
        if generation != first:
            generation, pattern = next(patterns)
        before = pattern
        generation, pattern = next(patterns)
        yield Step(first, before, pattern)


def _each_once(rising: Iterator[int]) -> Iterator[int]:
    last = -1
    for number in rising:
        if number > last:
            yield number
            last = number


def _patterns(desk: Desk, generations: Iterator[int]) -> Iterator[Tuple[int, World]]:
    """The patterns of generations that rise. The last bookmark of a batch stays, so that the next one is computed from
    there."""
    last: List[int] = []
    while True:
        batch = list(islice(generations, BATCH))
        if not batch:
            return
        marks = [desk.mark(generation, "mc") for generation in batch]
        for generation, bookmark in zip(batch, marks):
            yield generation, cells_of(desk.show(bookmark))
        for old in [*last, *marks[:-1]]:
            desk.unmark(old)
        last = [marks[-1]]


def checked(fires: Fires, step: Step, laid: World = NOTHING) -> None:
    """Counts one step, of which the reader has to give the same next generation as the program.

    laid: the states of cells that are set in the next generation
    Differs: it doesn't.
    """
    arrived = {**fires.add(step.before), **laid}
    found = {place: state for place, state in arrived.items() if state}
    if found != step.after:
        raise Differs(_difference(fires.rule, step, found))


def _difference(rule: Rule, step: Step, found: World) -> str:
    """Where the first cell is in which both differ, and why the reader gives its state."""
    x, y = min((place for place in {*found, *step.after} if found.get(place) != step.after.get(place)),
               key=lambda place: (place[1], place[0]))
    around = [step.before.get((x + right, y + down), 0) for right, down in OFFSETS]
    said = ", ".join(f"{name} = {state}" for name, state in zip(PLACES, around) if state)
    return (f"the cell ({x}, {y}) has state {step.after.get((x, y), 0)} at generation {step.generation + 1} by the "
            f"program, and {found.get((x, y), 0)} as the rule is read here, which is an error in this command. "
            f"Around it was {said or 'nothing'}, and {rule.why(around)}")


def told(found: Iterator[Step], count: int) -> Iterator[Step]:
    """The same steps; standard error tells how many are counted, and the time to go."""
    began, shown, is_screen = time.monotonic(), 0.0, sys.stderr.isatty()
    for done, step in enumerate(found, 1):
        yield step
        passed = time.monotonic() - began
        if done == count or passed > shown + (0.2 if is_screen else 5):
            shown = passed
            to_go = passed / done * (count - done)
            text = f"{done} of {count} generations are counted, about {to_go:.0f} s to go"
            say(text, "" if is_screen and done < count else "\n")


def words() -> argparse.Namespace:
    """The words of the command line."""
    found = argparse.ArgumentParser(
        prog=command_name(), description=(__doc__ or "").partition("\n")[0], epilog=EXAMPLE,
        formatter_class=argparse.RawDescriptionHelpFormatter)
    found.add_argument("rule", metavar="RULE", nargs="?",
                       help="a .rule file, or a rule's name; without it the pattern's header names the rule")
    found.add_argument("pattern", metavar="PATTERN",
                       help="an RLE, macrocell, MCell or Life file, or one packed by gzip")
    found.add_argument("--to", metavar="G", type=int, required=True, help="counts the steps up to this generation")
    found.add_argument("--from", metavar="G", type=int, default=0, dest="first",
                       help="counts the steps from this generation on; else from 0")
    found.add_argument("--every", metavar="N", type=int, default=1,
                       help="counts the steps from each N-th generation alone; else from each")
    found.add_argument("--unmatched", metavar="N", type=int, default=MOST_UNMATCHED,
                       help=f"how many neighbourhoods that no line matches are listed; else {MOST_UNMATCHED}")
    found.add_argument("--squares", metavar="N", type=int, help="how many squares an engine may hold, up to 16777216")
    found.add_argument("--desk", metavar="PROGRAM", help=DESK_HELP)
    given = found.parse_args()
    if not 0 <= given.first < given.to:
        found.error("--from isn't negative, and --to is greater")
    if given.every < 1 or given.unmatched < 0:
        found.error("--every is 1 or more, and --unmatched isn't negative")
    return given


def rule_read(desk: Desk, found: Found) -> Rule:
    """Gives the program a rule, and reads it.

    Refused: the program refuses it. Differs: the program takes it, and the reader doesn't.
    """
    name = found.path or found.name
    desk.rule_text(found.text, name)
    try:
        return rule_of(found.text, name)
    except Refused as fault:
        raise Differs(f"the program takes the rule, and this command can't read it, which is an error in this command: "
                      f"{fault.brief}") from None


def counted(given: argparse.Namespace, desk: Desk) -> Counted:
    """Counts the generations that are asked for, as far as they can be computed.

    Differs: the program and the reader don't agree.
    """
    rule = rule_of_file(given.pattern, given.rule)
    if not given.rule:
        say(rule.line)
    fires = Fires(rule_read(desk, rule))
    if desk.start(given.pattern):
        say("the pattern's own generation isn't used, generations count from 0")
    generations = range(given.first, given.to, given.every)
    reached = given.first
    try:
        for step in told(steps(desk, generations), len(generations)):
            checked(fires, step)
            reached = step.generation + 1
    except Pending:
        cause = desk.settle().cause or 0
        return Counted(fires, f"no generation behind {reached} is counted: {REMEDIES.get(cause, f'cause {cause}')}", 1)
    except KeyboardInterrupt:
        return Counted(fires, f"broken off at generation {reached}", BROKEN_OFF)
    return Counted(fires, "", 0)


def main() -> int:
    given = words()
    warnings.showwarning = lambda text, *_: say(str(text))
    try:
        with Desk(given.desk, given.squares) as desk:
            found = counted(given, desk)
        print_line(table_text(found.fires, given.unmatched))
    except (Trouble, OSError) as fault:
        say(str(fault))
        return 1
    except KeyboardInterrupt:
        say("broken off before the table was there")
        return BROKEN_OFF
    if found.lack:
        say(found.lack)
    return found.status
