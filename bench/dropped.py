#!/usr/bin/env python3
"""Measures that nothing waits for a job that an edit dropped.

A step that takes minutes is begun by `work`. After a second an edit drops it, and another bookmark is settled. Printed
are the milliseconds that the edit took, and the settling behind it, with as many workers as are busy with dropped steps.
"""

import statistics
import time

from measuring import THIRTY, Session, taking, words_of

EDITS = {"the bookmark is removed": "unmark 1\n", "the start is edited": "set 5 0 1\nunmark 1\n",
         "an intervention before it": "at 7 set 5 0 1\nunmark 1\n"}


def dropped(program, workers, edit):
    """The milliseconds of the edit's first reply, and of the settling."""
    with Session(program, workers=workers) as desk:
        desk.asked(f"{taking(THIRTY)}set 0 0 1\nmark 1000000 counts\nwork\n", "ok", "ok", "ok", "working")
        time.sleep(1)
        edited = desk.asked(edit, *["ok"] * edit.count("\n"))
        settled = desk.asked("mark 100 counts\nsettle\n", "ok", "settled")
        desk.asked("quit\n", "bye")
    return 1000 * edited, 1000 * settled


def main():
    given = words_of(__doc__, runs=5).parse_args()
    print("| edit | workers | edit ms | settle ms | longest settle ms |\n|---|---|---|---|---|")
    for name, edit in EDITS.items():
        for workers in (1, 2):
            runs = [dropped(given.desk, workers, edit) for _ in range(given.runs)]
            edits, settles = zip(*runs)
            print(f"| {name} | {workers} | {statistics.median(edits):.2f} | "
                  f"{statistics.median(settles):.2f} | {max(settles):.2f} |", flush=True)


if __name__ == "__main__":
    main()
