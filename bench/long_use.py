#!/usr/bin/env python3
"""Measures what a long session costs: many edits, each followed by a settling.

    bench/long_use.py [--desk PROGRAM] [--part 1]

A small pattern, Golly's glider of five cells, takes 100,000 edits, and a medium one, a soup of 256 by 256 places, 5,000.
Both have bookmarks at the generations 16 and 64, and are edited in two ways: a cell of the start changes, or an
intervention at generation 16. What an edit costs is the difference between a session of all edits and one of a tenth
of them, so that what the pattern costs by itself doesn't count. With --part a tenth of the edits is made, say.
"""
from measuring import LIFE, begun, measured, soup, words_of

GLIDER = "x = 3, y = 3\nbo$2bo$3o!\n"
MARKS = "mark 16 counts\nmark 64 counts\nat 16 set 300 0 1\nsettle\n"


def cell(k):
    """A place of its own for each edit, far from the pattern."""
    return f"{300 + k % 1000} {k // 1000}"


# Each edit moves one cell, so that no two of them leave the same pattern, and none a larger one.
EDITS = {
    "a cell of the start": lambda k: f"set {cell(k)} 0 {cell(k + 1)} 1\n",
    "an intervention": lambda k: f"change 1 16 set {cell(k)} 1\n",
}
PATTERNS = [("a glider", GLIDER, 100000), ("a soup of 256 by 256", soup(256), 5000)]


def session(pattern, edit, count):
    """A script of so many edits, each settled."""
    edits = "".join(f"{edit(k)}settle\n" for k in range(count))
    return f"{begun(LIFE, pattern)}{MARKS}{edits}quit\n"


def main():
    words = words_of(__doc__)
    words.add_argument("--part", type=float, default=1)
    given = words.parse_args()
    desk = [given.desk]
    print("| pattern | edits of | edits | s | MB | ms an edit | bytes an edit |\n|---|---|---|---|---|---|---|")
    for name, pattern, most in PATTERNS:
        for kind, edit in EDITS.items():
            count = int(most * given.part)
            runs = [measured(desk, session(pattern, edit, edits)) for edits in (count // 10, count)]
            (few_seconds, few_peak, _), (seconds, peak, said) = runs
            assert said.splitlines()[-2:] == ["settled", "bye"], said.splitlines()[-2:]
            edits = count - count // 10
            print(f"| {name} | {kind} | {count} | {seconds:.1f} | {peak:.0f} | {1000 * (seconds - few_seconds) / edits:.3f} "
                  f"| {(peak - few_peak) * (1 << 20) / edits:.0f} |", flush=True)


if __name__ == "__main__":
    main()
