#!/usr/bin/env python3
"""Times sweeps: soups beside bgolly in a loop of the shell, and a signal that is cut at each of 4,096 generations.

    bench/sweep.py [--desk PROGRAM] [--soups 500] [--jobs 1] [--loops 1] [--cuts 4096] [--only soups]

bgolly, Golly's engine without a window, comes with Debian's package `golly`. It is started for each soup, by so many
loops of the shell side by side; sweep.py keeps as many programs as there are jobs. Both are bound to as many processors
as jobs, get the same files' cells and the same table of Life, and the numbers of live cells that they give have to be
equal. With four jobs and one loop it is what a person gains who writes a loop over bgolly today.

A cut is an intervention that empties a cell of the conductor of Langton's loop, whose cells of each state at generation
4,200 are asked for. The sweep tells each case as edits of the one before; beside it some of the cases are run with a
program that is started for each of them.
"""
import csv
import os
import re
import subprocess
import sys
import tempfile
import time

from measuring import HERE, LIFE, words_of

CLIENTS = f"{HERE}/../clients/python"
sys.path.insert(0, f"{CLIENTS}/src")

from desk import Desk, Show, Soup, sweep  # noqa: E402
from desk.sweep.soups import rle  # noqa: E402

SOUPS = [(8, 100), (16, 200), (32, 200), (32, 1000), (64, 1000)]
DENSITY = 0.3
LOOP, LOOP_RULE = "Patterns/Loops/Langtons-Loops.rle", "Rules/Langtons-Loops.rule"
CELL, AT = (11, 1, 0), 4200


def timed(words):
    """The seconds of the wall and of processors that a command takes with all that it starts, and what it writes."""
    began = time.monotonic()
    with tempfile.TemporaryFile() as said:
        child = subprocess.Popen(words, stdout=said, stderr=subprocess.PIPE)
        errors = child.stderr.read().decode(errors="replace")
        _, status, used = os.wait4(child.pid, 0)
        child.returncode = os.waitstatus_to_exitcode(status)
        if child.returncode:
            raise SystemExit(f"{words[0]} ended with status {child.returncode}: {errors}")
        said.seek(0)
        return time.monotonic() - began, used.ru_utime + used.ru_stime, said.read().decode()


def by_bgolly(room, side, to, count, loops):
    """The live cells of each soup, and the seconds, by so many loops of the shell side by side."""
    for seed in range(1, count + 1):
        with open(f"{room}/{seed}.rle", "w", encoding="utf-8") as file:
            file.write(rle(Soup(seed, side, side, DENSITY), (1,), "LifeTable"))
    one = f"bgolly -a RuleLoader -s {room}/ -m {to} -i {to} {room}/$seed.rle > {room}/$seed.said"
    shells = [f"for seed in $(seq {loop + 1} {loops} {count}); do {one} || exit 1; done" for loop in range(loops)]
    wall, used, _ = timed(["sh", "-c", " & ".join(f"({it})" for it in shells) + "; wait"])
    cells = {}
    for seed in range(1, count + 1):
        with open(f"{room}/{seed}.said", encoding="utf-8") as file:
            cells[seed] = int(re.findall(r"(?m)^[\d,]+: ([\d,]+)$", file.read())[-1].replace(",", ""))
    return cells, wall, used


def by_sweep(room, side, to, count, jobs, desk):
    """The same by sweep.py as it is called, all of it."""
    words = ["--rule", f"{room}/LifeTable.rule", "--soup", count, "--size", side, "--density", DENSITY, "--to", to]
    out = f"{room}/{side}-{to}.csv"
    call = [sys.executable, f"{CLIENTS}/sweep.py", *map(str, words), "--jobs", str(jobs), "--out", out, "--desk", desk]
    wall, used, _ = timed(call)
    with open(out, encoding="utf-8", newline="") as file:
        return {int(row["seed"]): int(row["population"]) for row in csv.DictReader(file)}, wall, used


def soups(desk, count, jobs, loops):
    print("| soups | desk, cases a second | bgolly | ratio | desk, processor ms a case | bgolly | ratio |")
    print("|---|---|---|---|---|---|---|")
    with tempfile.TemporaryDirectory() as room:
        with open(f"{room}/LifeTable.rule", "w", encoding="utf-8") as file:
            file.write(LIFE)
        for side, to in SOUPS:
            theirs, their_wall, their_used = by_bgolly(room, side, to, count, loops)
            ours, wall, used = by_sweep(room, side, to, count, jobs, desk)
            if ours != theirs:
                raise SystemExit(f"the cells differ: {[it for it in theirs if ours.get(it) != theirs[it]][:9]}")
            print(f"| {count} of {side} by {side} to {to} | {count / wall:.1f} | {count / their_wall:.1f} "
                  f"| {their_wall / wall:.2f} | {1000 * used / count:.1f} | {1000 * their_used / count:.1f} "
                  f"| {their_used / used:.2f} |", flush=True)


def cut(desk, generation):
    """Langton's loop with a cell that is emptied at a generation."""
    desk.rule(f"{cut.golly}/{LOOP_RULE}")
    desk.start(f"{cut.golly}/{LOOP}")
    desk.at(generation, [CELL])
    return Show(AT)


def cuts(desk, count):
    began = time.monotonic()
    found = {it.case: it.value for it in sweep(cut, range(count), jobs=1, program=desk)}
    kept = (time.monotonic() - began) / count
    some = range(0, count, max(1, count // 64))
    began = time.monotonic()
    for generation in some:
        with Desk(desk, workers=1) as alone:
            wanted = alone.show(alone.mark(*cut(alone, generation)))
        if found[generation] != wanted:
            raise SystemExit(f"cut at {generation}: {found[generation]} and {wanted}")
    new = (time.monotonic() - began) / len(some)
    different = len({str(it) for it in found.values()})
    print(f"\n{count} cuts: {1000 * kept:.1f} ms a case, and {1000 * new:.1f} ms with a new program each ({len(some)} "
          f"of them): {new / kept:.1f} times; {different} different endings")


def main():
    words = words_of(__doc__, golly=True)
    words.add_argument("--soups", type=int, default=500)
    words.add_argument("--jobs", type=int, default=1)
    words.add_argument("--loops", type=int, default=1)
    words.add_argument("--cuts", type=int, default=4096)
    words.add_argument("--only", choices=["soups", "cuts"])
    given = words.parse_args()
    cut.golly = given.golly
    os.sched_setaffinity(0, sorted(os.sched_getaffinity(0))[-given.jobs:])
    if given.only != "cuts":
        soups(given.desk, given.soups, given.jobs, given.loops)
    if given.only != "soups":
        cuts(given.desk, given.cuts)
    return 0


if __name__ == "__main__":
    sys.exit(main())
