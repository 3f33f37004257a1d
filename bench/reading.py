#!/usr/bin/env python3
"""Times how desk reads RLE texts that are near its limits.

    bench/reading.py [--desk PROGRAM]

Strewn: 1,000,000 cells at random places of 2^57 by 2^57, whose 37 million distinct squares are more
than an engine holds. Runs: 1,000,000 rows of a run of 15 cells and a single one, as far apart. Grid:
16,777,216 cells, each with empty ones round it, which are few distinct squares. The table has the
processor seconds of the whole process, the peak of its memory, and the reply.
"""
import random

from measuring import LIFE, begun, measured, words_of

ROWS = 1_000_000


def strewn():
    chance = random.Random(5)
    at = sorted(chance.randrange(2**57) for _ in range(ROWS))
    down = [at[0], *(low - high for high, low in zip(at, at[1:]))]
    return "".join(f"{rows or ''}{'$' if rows else ''}{chance.randrange(2**57)}bo\n" for rows in down)


def runs():
    chance = random.Random(9)
    far = 2**56
    return "".join(
        f"{chance.randrange(far)}b15o{chance.randrange(far)}bo\n{chance.randrange(1, 2**36)}$" for _ in range(ROWS)
    )


def grid():
    return ("o3b" * 4096 + "4$\n") * 4096


def main():
    desk = words_of(__doc__).parse_args().desk
    print("| text | MB of text | reply | s | MB |")
    print("|---|---|---|---|---|")
    for case in (strewn, runs, grid):
        pattern = f"x = 0, y = 0, rule = LifeTable\n{case()}!"
        seconds, peak, said = measured([desk], f"{begun(LIFE, pattern)}quit\n")
        reply = said.splitlines()[1]
        print(f"| {case.__name__} | {len(pattern) / 1e6:.0f} | `{reply}` | {seconds:.1f} | {peak:.0f} |", flush=True)
    return 0


if __name__ == "__main__":
    raise SystemExit(main())
