#!/usr/bin/env python3
"""Measures the pool of workers of the program, by its scripts.

- Two views of one pattern: the wall time from `settle` to its reply, with one worker and with two; two RLE texts, and
  an RLE text and a macrocell text.
- The start of a pool: the wall time of a run that only quits, less that of a run that only writes its help.
- A job's way there and back: the time that a settling of one job adds to a script of edits.
"""

import random
import statistics
import subprocess
import time

from measuring import THIRTY, Session, begun, taking, words_of


def strewn(side, cells):
    """The RLE text of so many live cells in a square, strewn at random."""
    live = set(random.Random(1).sample(range(side * side), cells))
    rows = []
    for y in range(side):
        row = "".join("o" if y * side + x in live else "b" for x in range(side))
        rows.append(row)
    body = "$\n".join(rows)
    return f"x = {side}, y = {side}, rule = Thirty\n{body}!"


def views(program, workers, pattern, kinds):
    with Session(program, workers=workers) as desk:
        desk.asked(begun(THIRTY, pattern), "ok", "ok")
        for kind in kinds:
            desk.asked(f"mark 0 {kind}\n", "ok")
        taken = desk.asked("settle\n", "settled")
        desk.asked("quit\n", "bye")
    return taken


def run_once(program, words, script):
    begun = time.perf_counter()
    subprocess.run([program, *words], input=script, stdout=subprocess.DEVNULL, check=True)
    return time.perf_counter() - begun


def edits(count, line):
    """So many edits of one cell, each with this line behind it."""
    body = "".join(f"set 0 0 {1 - turn % 2}\n{line}" for turn in range(count))
    return (taking(THIRTY) + "mark 0 counts\n" + body + "quit\n").encode()


def medians(runs, *calls):
    """The median of each call's answers, the calls in turns."""
    answers = [[] for _ in calls]
    for _ in range(runs):
        for answer, call in zip(answers, calls):
            answer.append(call())
    return [statistics.median(answer) for answer in answers]


def main():
    parser = words_of(__doc__, runs=9)
    parser.add_argument("--cells", type=int, default=1_000_000)
    options = parser.parse_args()
    program = options.desk

    pattern = strewn(2 * int(options.cells ** 0.5), options.cells)
    for kinds in (("rle", "rle"), ("rle", "mc")):
        one, two = medians(
            options.runs,
            lambda: views(program, 1, pattern, kinds),
            lambda: views(program, 2, pattern, kinds))
        print(f"{' and '.join(kinds)} of {options.cells} cells: one worker {one:.3f} s,"
              f" two workers {two:.3f} s, ratio {two / one:.2f}")

    for workers in (1, 2, 8):
        words = ["--workers", str(workers)]
        idle, started = medians(
            10 * options.runs,
            lambda: run_once(program, ["--help"], b""),
            lambda: run_once(program, words, b"quit\n"))
        print(f"a run that quits, {workers} workers: {1e3 * (started - idle):.2f} ms more than help")

    count = 10_000
    for workers in (1, 2, 8):
        words = ["--workers", str(workers)]
        plain, settled = medians(
            options.runs,
            lambda: run_once(program, words, edits(count, "")),
            lambda: run_once(program, words, edits(count, "settle\n")))
        print(f"a settling of one job, {workers} workers: {1e6 * (settled - plain) / count:.1f} us")


if __name__ == "__main__":
    main()
