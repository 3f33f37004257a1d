#!/usr/bin/env python3
"""Times documents of many marks.

    bench/marks.py [--desk PROGRAM]

Settling: a document gets so many counts bookmarks at distinct generations of a pattern of two cells
that never changes, and is settled once. What is measured is the desk's own work for each mark.

Editing: a document with 4,096 interventions and 4,096 bookmarks takes 1,000 edits of each kind. The
time of an edit is that of the script beside the same script without them.
"""
import sys

from measuring import measured, words_of

MOST = 4096
EDITS = 1000

STILL = "set 0 0 1 1 0 1\n"


def settled(marks):
    """The seconds of a script that settles so many bookmarks."""
    lines = [f"mark {generation} counts" for generation in range(1, marks + 1)]
    return STILL + "\n".join([*lines, "settle", "quit"]) + "\n"


def full():
    """The lines that make a document with all interventions and bookmarks that it may have."""
    sets = [f"at {2 * k + 1} set {k} 0 1" for k in range(MOST)]
    marks = [f"mark {2 * k + 2} counts" for k in range(MOST)]
    return STILL + "\n".join([*sets, *marks]) + "\n"


KINDS = {
    "change, at the beginning": lambda k: f"change 1 1 set {k} 1 1",
    "change, to another generation": lambda k: f"change {k + 1} {2 * k + 1 + k % 2} set {k} 1 1",
    "move a bookmark": lambda k: f"move {k + 1} {2 * k + 1}",
    "set a cell of the start": lambda k: f"set {k} 2 1",
}


def main():
    desk = [words_of(__doc__).parse_args().desk]
    print("| bookmarks that are settled | s | MB |")
    print("|---|---|---|")
    for marks in (512, 1024, 2048, 4096):
        seconds, peak, said = measured(desk, settled(marks))
        assert said.splitlines()[-2] == "settled", said.splitlines()[-2]
        print(f"| {marks} | {seconds:.2f} | {peak:.0f} |", flush=True)
    document = full()
    alone, _, _ = measured(desk, document + "quit\n")
    print()
    print("| edit of a full document | ms |")
    print("|---|---|")
    for kind, edit in KINDS.items():
        edits = "\n".join(edit(k) for k in range(EDITS))
        seconds, _, said = measured(desk, document + edits + "\nquit\n")
        assert said.count("\nok ") == 2 * MOST + EDITS, said[-200:]
        print(f"| {kind} | {(seconds - alone) * 1000 / EDITS:.3f} |", flush=True)
    return 0


if __name__ == "__main__":
    sys.exit(main())
