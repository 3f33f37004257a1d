"""The command `run`: from a pattern to what is there at a generation."""
from __future__ import annotations

import argparse
import warnings
from typing import Optional

from ..client import Desk
from ..colors import colors_of
from ..console import say
from ..errors import Ended, Trouble
from ..meanings import CAUSES, Meaning
from ..standard_output import print_bytes
from .answer import give
from .experiment import Experiment, experiment_of
from .options import options
from .progress import Progress
from .recorder import Recorder

BETWEEN = "To a script, which `--script` prints, such a bookmark can be added."
ANSWERED, PENDING, REFUSED, BROKEN_OFF, UNREAD = 0, 1, 2, 130, 141  # the last two as shells have them


def main() -> int:
    warnings.showwarning = lambda text, *_: say(str(text))
    try:
        given = options()
        experiment = experiment_of(given)
        return recorded(experiment) if given.script else ran(experiment, given)
    except BrokenPipeError:
        return UNREAD
    except Ended as fault:
        say(str(fault))
        return PENDING
    except (Trouble, OSError) as fault:
        say(str(fault))
        return REFUSED if isinstance(fault, Trouble) else PENDING
    except KeyboardInterrupt:
        say("broken off")
        return BROKEN_OFF


def recorded(experiment: Experiment) -> int:
    """Prints the script, and gives the exit status."""
    recorder = Recorder()
    experiment.make_in(Desk(transport=recorder))
    print_bytes(recorder.script())
    return ANSWERED


def ran(experiment: Experiment, given: argparse.Namespace) -> int:
    """Computes what is asked for and gives what is known, and the exit status."""
    with Desk(given.desk, given.squares, given.workers) as desk:
        marks = experiment.make_in(desk)
        cause = settled(desk, Progress(given.progress))
        lacks = give(desk, marks, experiment.asked, experiment.generation, colors_of(experiment.rule.text))
    pending = f"pending at generation {experiment.generation}: {', '.join(lacks.pending)}" if lacks.pending else ""
    if cause is None:
        say(f"broken off; {pending or 'all is known'}")
        return BROKEN_OFF
    if pending:
        say(f"{pending}\n{why(cause)}")
    return PENDING if pending or lacks.unwritten else REFUSED if lacks.unshown else ANSWERED


def settled(desk: Desk, progress: Progress) -> Optional[int]:
    """Computes all bookmarks, and gives the number of the cause if some stay pending, or None if it is broken off."""
    try:
        return desk.settle(progress=progress).cause
    except KeyboardInterrupt:
        return None
    finally:
        progress.end()


def why(cause: int) -> str:
    """The cause for which bookmarks are pending, and what to do."""
    name, means, remedy = CAUSES.get(cause, Meaning())
    between = f" {BETWEEN}" if name == "NoRoom" else ""
    return f"The cause is {cause} {name}: {means}.\nWhat to do: {remedy}.{between}"
