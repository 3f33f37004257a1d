"""Uses the program at random for hours, at the lowest priority, and says what differed.

Its time is shared by the parts that the report names. It goes on where the last soak of its folder ended, and where
the program is another one it counts anew, with further seeds. Ctrl-C or SIGTERM ends it with the report, too.
"""
from __future__ import annotations

import argparse
import os
import sys
from pathlib import Path

from desk.sweep.retelling import memory_of

from . import ROOT
from .parts import PARTS
from .report import report
from .soak import Soak
from .state import state_in

REPORT = "report.md"
SECONDS_AGAIN = 600.0


def words() -> argparse.Namespace:
    form = argparse.RawDescriptionHelpFormatter
    found = argparse.ArgumentParser("soak.sh", description=__doc__, formatter_class=form)
    found.add_argument("hours", metavar="HOURS", type=float, nargs="?", default=0.0)
    found.add_argument("--desk", metavar="PROGRAM", default=os.environ.get("DESK"), help="else the environment's DESK")
    found.add_argument("--folder", type=Path, default=ROOT / "soak", help="where the state, differences and the report "
                       "are kept, else the repository's folder soak")
    found.add_argument("--jobs", type=int, default=os.cpu_count() or 1, help="how many parts run at a time, else as "
                       "many as there are processors")
    found.add_argument("--part", action="append", choices=list(PARTS), help="this part alone; may be given again")
    found.add_argument("--usual", action="store_true", help="at the usual priority")
    found.add_argument("--again", nargs=2, metavar=("PART", "SEED"), help="runs one seed again, and says what it found")
    return found.parse_args()


def give_way() -> None:
    """Lets all else go first."""
    try:
        os.sched_setscheduler(0, os.SCHED_IDLE, os.sched_param(0))
    except (AttributeError, OSError):
        os.nice(19)


def again(part: str, seed: int, program: str) -> int:
    """Runs one seed, and says what differs. As it has no time to share, each run is made to its end."""
    with PARTS[part].open(program) as run:
        found = run(seed, SECONDS_AGAIN)
    for it in found.differences:
        print(it.why)
    print(f"{part}, seed {seed}: {len(found.differences)} differences in {found.runs} {PARTS[part].a_run}")
    return 1 if found.differences else 0


def main() -> int:
    given = words()
    if not given.desk or not given.again and given.hours <= 0:
        print("soak: it needs HOURS above 0, and a program: ./soak.sh 8", file=sys.stderr)
        return 2
    program = os.path.realpath(given.desk)
    if given.again:
        return again(given.again[0], int(given.again[1]), program)
    if not given.usual:
        give_way()
    state = state_in(given.folder, program, PARTS)
    Soak(state, given.folder, program, given.hours, given.jobs, given.part or list(PARTS)).run()
    text = report(state, memory_of(os.getpid()))
    (given.folder / REPORT).write_text(text)
    print(text, end="", flush=True)
    return 1 if any(it.differences for it in state.parts.values()) else 0


if __name__ == "__main__":
    sys.exit(main())
