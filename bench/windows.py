#!/usr/bin/env python3
"""Times how desk renders windows of 256 by 256 cells.

    bench/windows.py [--desk PROGRAM]

A script marks many windows of one start, each a cell further to the right, and settles. The table
has the processor milliseconds of one window: what the script takes more than one without windows,
shared out. To compare two programs, run it once with each.
"""
import sys

from measuring import LIFE, begun, measured, soup, words_of

WINDOWS = 100
SIDE = 256
FAR = 2**60 - 1024


def at(x, y, text):
    """A pattern's text, with its upper left cell at (x, y)."""
    return f"#CXRLE Pos={x},{y}\n{text}"


def diagonal(length):
    """Live cells from the upper left to the lower right, as RLE."""
    rows = ["o" if i == 0 else f"{i}bo" for i in range(length)]
    return f"x = {length}, y = {length}, rule = LifeTable\n" + "$\n".join(rows) + "!\n"


# A start, and where its first window lies.
CASES = {
    "a soup of 512 by 512": (at(-256, -256, soup(512)), -180, -128),
    "a soup far out": (at(FAR, FAR, soup(512)), FAR + 64, FAR + 64),
    "a diagonal far out": (at(FAR, FAR, diagonal(512)), FAR + 64, FAR + 64),
    "no cell, far from a soup": (at(-256, -256, soup(512)), FAR + 64, FAR + 64),
}


def script(start, left, top, windows):
    """A script with so many windows of a start."""
    marks = [f"mark 0 window {left + k} {top} {SIDE} {SIDE}" for k in range(windows)]
    return begun(LIFE, start) + "\n".join([*marks, "settle", "quit"]) + "\n"


def least(program, given):
    """The least processor seconds of three runs."""
    return min(measured([program], given)[0] for _ in range(3))


def main():
    program = words_of(__doc__).parse_args().desk
    print("| window of | ms |")
    print("|---|---|")
    for name, (start, left, top) in CASES.items():
        without = least(program, script(start, left, top, 0))
        each = (least(program, script(start, left, top, WINDOWS)) - without) / WINDOWS
        print(f"| {name} | {each * 1000:.2f} |", flush=True)
    return 0


if __name__ == "__main__":
    sys.exit(main())
