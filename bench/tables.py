#!/usr/bin/env python3
"""Times how desk reads tables near the limits.

    bench/tables.py [--desk PROGRAM]

Corners: the table has four lines and leaves all its lists behind the corners of a Moore
neighbourhood, so that a tree of it needs about n^4 nodes for n states. It is legal, and read and
kept as a table; the processor seconds and the peak of memory are those of finding that out.

Expanded: the table has just under 1,000,000 expanded transitions, by two variables of all states
under rotate8. Its tree has half a million nodes with 200 states and 850,000 with 256.
"""
import sys

from measuring import measured, words_of

LINES = (
    "0,z1,z2,z3,z4,a,z5,z6,a,1",
    "0,z1,a,a,z2,z3,z4,z5,z6,1",
    "0,z1,z2,z3,z4,z5,a,a,z6,1",
    "0,a,z1,z2,a,z3,z4,z5,z6,1",
)


def corners(states):
    """A script's command for the table of so many states."""
    every = ",".join(map(str, range(states)))
    alive = ",".join(map(str, range(1, states)))
    variables = [f"var a={{{alive}}}"] + [f"var z{k}={{{every}}}" for k in range(1, 7)]
    head = ["rule", "@RULE Corners", "@TABLE", f"n_states:{states}", "neighborhood:Moore", "symmetries:none"]
    return "\n".join([*head, *variables, *LINES, "end", "quit"]) + "\n"


def expanded(states):
    """A script's command for a table of so many states with as many expanded transitions as fit."""
    every = ",".join(map(str, range(states)))
    pairs = 8 * states * states
    head = ["rule", "@RULE Expanded", "@TABLE", f"n_states:{states}", "neighborhood:Moore", "symmetries:rotate8"]
    twos, ones = 999_999 // pairs, 999_999 % pairs // states
    lines = ["a,a,b,b,0,0,0,0,0,0"] * twos + ["a,a,a,a,a,a,a,a,a,0"] * ones
    return "\n".join([*head, f"var a={{{every}}}", f"var b={{{every}}}", *lines, "end", "quit"]) + "\n"


def main():
    desk = [words_of(__doc__).parse_args().desk]
    print("| table | states | s | MB |")
    print("|---|---|---|---|")
    tables = [(corners, states) for states in (32, 48, 64, 255)] + [(expanded, states) for states in (200, 256)]
    for table, states in tables:
        seconds, peak, said = measured(desk, table(states))
        kept = "" if said.startswith("ok 1") else f" ({said.splitlines()[0]})"
        print(f"| {table.__name__} | {states}{kept} | {seconds:.1f} | {peak:.0f} |", flush=True)
    return 0


if __name__ == "__main__":
    sys.exit(main())
