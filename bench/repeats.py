#!/usr/bin/env python3
"""Times documents whose interventions repeat.

    bench/repeats.py [--desk PROGRAM]

Each document has a bookmark at the last of so many generations and interventions that repeat up to there,
so that each generation is a mark. A pattern of two cells that never changes shows the desk's own work for
a mark; one that blinks is computed once for each of its two states. Then one of the interventions is
changed where nothing is felt, and where it is.
"""
from measuring import LIFE, measured, taking, words_of

STILL = "set 0 0 1 1 0 1\n"
BLINKER = f"{taking(LIFE)}set 0 0 1 1 0 1 2 0 1\n"
MOST = 8192  # marks of interventions that repeat

CASES = [
    ("one that repeats, a still pattern", STILL, 1),
    ("one that repeats, a blinker", BLINKER, 1),
    ("4,096 that repeat, a still pattern", STILL, 4096),
]


def document(start, count):
    """The lines of a document with so many interventions that repeat, each of an empty cell far away."""
    lines = [f"mark {MOST - 1} counts"]
    lines += [f"every {count} {k} {MOST - 1} set {1000 + k} 9 0" for k in range(count)]
    return start + "\n".join(lines) + "\n"


def main():
    desk = [words_of(__doc__).parse_args().desk]
    print("| document of 8,192 marks | s to make it | s to settle it | MB | ms of an edit that isn't felt | ms of one that is |")
    print("|---|---|---|---|---|---|")
    for name, start, count in CASES:
        text = document(start, count)
        made, _, _ = measured(desk, text + "quit\n")
        seconds, peak, said = measured(desk, text + "settle\nquit\n")
        assert said.splitlines()[-2] == "settled", said.splitlines()[-2]
        times = []
        for cells in ("9 9 0", "9 9 1"):
            edits = "".join(f"change 1 every {count} 0 {MOST - 1} set {cells} {k} 10 0\n" for k in range(20))
            after, _, said = measured(desk, text + "settle\n" + edits + "quit\n")
            assert said.splitlines()[-2].startswith("ok "), said.splitlines()[-2]
            times.append((after - seconds) * 1000 / 20)
        print(f"| {name} | {made:.2f} | {seconds - made:.2f} | {peak:.0f} | {times[0]:.1f} | {times[1]:.1f} |", flush=True)


if __name__ == "__main__":
    main()
