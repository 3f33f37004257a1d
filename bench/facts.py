#!/usr/bin/env python3
"""Times what a desk remembers.

    bench/facts.py [--desk PROGRAM] [--golly FOLDER] [--runs COUNT]

An intervention at 0.9 of the way of Langton's loops to 2^20 is changed, and put back: the time of
the settling at first, after the change, and after it was put back, with 64 facts and with 1.

Then a soup of 1,024 by 1,024 places is settled at 256 generations, so that the facts are of patterns
of a megabyte or so, and an intervention is changed 100 times: the time of an edit with room for 4,096
facts, of which some 256 are kept, and for 1. All times are of the wall, the median of the runs.
"""
import statistics
import sys

from measuring import LIFE, Session, begun, soup, text_of, words_of

FAR = 2**20
EDITS = 100


def put_back(program, facts, golly):
    """The milliseconds of the three settlings."""
    at = FAR * 9 // 10
    rule = text_of(f"{golly}/Rules/Langtons-Loops.rule")
    with Session(program, facts=facts, workers=1) as desk:
        desk.asked(begun(rule, text_of(f"{golly}/Patterns/Loops/Langtons-Loops.rle")), "ok", "ok")
        desk.asked(f"at {at} set 1000 1000 1\nmark {FAR} counts\n", "ok", "ok")
        first = desk.asked("settle\n", "settled")
        desk.asked(f"change 1 {at} set 1001 1000 1\n", "ok")
        changed = desk.asked("settle\n", "settled")
        desk.asked(f"change 1 {at} set 1000 1000 1\n", "ok")
        again = desk.asked("settle\n", "settled")
    return 1000 * first, 1000 * changed, 1000 * again


def edits(program, facts):
    """The milliseconds of an edit."""
    marks = "".join(f"mark {k} counts\n" for k in range(1, 257))
    lines = "".join(f"change 1 250 set {k} 5000 1\n" for k in range(EDITS))
    with Session(program, facts=facts, workers=1) as desk:
        desk.asked(begun(LIFE, soup(1024)) + marks, *["ok"] * 258)
        desk.asked("at 250 set 0 0 1\nsettle\n", "ok", "settled")
        seconds = desk.asked(lines, *["ok"] * EDITS)
    return 1000 * seconds / EDITS


def main():
    given = words_of(__doc__, golly=True, runs=3).parse_args()
    print("| facts | first, ms | changed, ms | put back, ms |")
    print("|---|---|---|---|")
    for facts in (64, 1):
        rows = [put_back(given.desk, facts, given.golly) for _ in range(given.runs)]
        first, changed, again = map(statistics.median, zip(*rows))
        print(f"| {facts} | {first:.0f} | {changed:.0f} | {again:.1f} |", flush=True)
    print()
    print("| room for facts | an edit, ms |")
    print("|---|---|")
    for facts in (4096, 1):
        print(f"| {facts} | {statistics.median(edits(given.desk, facts) for _ in range(given.runs)):.2f} |", flush=True)
    return 0


if __name__ == "__main__":
    sys.exit(main())
