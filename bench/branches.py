#!/usr/bin/env python3
"""Times two branches of equal work with one worker and with two.

    bench/branches.py [--desk PROGRAM] [--runs COUNT] [--most RATIO]

Both branches leave branch 0 at generation 0, and each gets a pattern of its own by interventions there:
as many cells in the same square or row, strewn by another seed. So no step serves both. The time is that
of the wall from `settle` to its reply, the median of the runs with one worker and with two in turns, and
the texts that are shown have to be the same. The exit status is 1 where a ratio is above RATIO (0.6).
"""
import random
import statistics
import sys

from measuring import LIFE, THIRTY, Session, taking, words_of

AT_A_TIME = 10_000  # cells that an intervention may name

# Name, rule, width and height of what is strewn, how many cells, generations.
CASES = [
    ("soups of 512 by 512 to 2^9", LIFE, 512, 512, 80_000, 2**9),
    ("rows of 512 under rule 30 to 2^13", THIRTY, 512, 1, 256, 2**13),
]


def interventions(branch, width, height, count):
    """The lines that strew so many cells over a branch."""
    places = random.Random(branch).sample(range(width * height), count)
    cells = [f"{place % width} {place // width} 1" for place in places]
    parts = [cells[k : k + AT_A_TIME] for k in range(0, count, AT_A_TIME)]
    return [f"on {branch} at 0 set {' '.join(part)}" for part in parts]


def document(rule, width, height, count, generations):
    """The lines of a document of two branches, as text, and how many replies they get."""
    edits = ["branch 0 0", "branch 0 0"]
    for branch in (1, 2):
        edits += interventions(branch, width, height, count)
        edits.append(f"on {branch} mark {generations} counts")
    return taking(rule) + "\n".join(edits) + "\n", 1 + len(edits)


def settled(program, workers, text, replies):
    """The seconds of the settling, and what both bookmarks show."""
    with Session(program, workers=workers, squares=16777216) as desk:
        desk.asked(text, *["ok"] * replies)
        seconds = desk.asked("settle\n", "settled")
        return seconds, desk.told("show 1\nshow 2\nquit\n")


def compared(program, runs, case):
    """The median seconds with one worker and with two."""
    text, replies = document(*case)
    seconds, shown = {1: [], 2: []}, set()
    for _ in range(runs):
        for workers, found in seconds.items():
            taken, texts = settled(program, workers, text, replies)
            found.append(taken)
            shown.add(texts)
    if len(shown) != 1:
        raise SystemExit(f"the texts differ: {shown}")
    return statistics.median(seconds[1]), statistics.median(seconds[2])


def main():
    words = words_of(__doc__, runs=5)
    words.add_argument("--most", type=float, default=0.6)
    given = words.parse_args()
    worst = 0.0
    print("| two branches | one worker, s | two workers, s | ratio |")
    print("|---|---|---|---|")
    for name, *case in CASES:
        one, two = compared(given.desk, given.runs, case)
        worst = max(worst, two / one)
        print(f"| {name} | {one:.2f} | {two:.2f} | {two / one:.2f} |", flush=True)
    return 1 if worst > given.most else 0


if __name__ == "__main__":
    sys.exit(main())
