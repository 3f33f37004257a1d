#!/usr/bin/env python3
"""Counts how often blocks of cells are put to a rule, beside how many different ones there are.

    bench/asks.py [--desk PROGRAM] [--golly FOLDER] [--far GENERATIONS]

HashLife puts blocks of 4 by 4 cells to the rule, which is asked for each of the four cells in the middle. desk keeps
the results of a limited number of blocks, and puts one that it forgot to the rule again. valgrind, from Debian's
package of that name, counts how often it does. The different blocks are counted here, in each generation before the
last as desk shows it: those that begin where both coordinates are even or odd as the generation is, since a step takes
a cell off each side of a square.
"""
import os
import re
import subprocess
import sys
import tempfile

from measuring import HERE, LIFE, begun, soup, text_of, words_of

sys.path.insert(0, f"{HERE}/../clients/python/src")

from desk import Desk  # noqa: E402
from desk.formats.macrocell import Frame  # noqa: E402
from desk.formats.rle import RunLengths  # noqa: E402


def cases(golly):
    """Name, rule and pattern of each: soups of two, three and four states, and a pattern of which much repeats."""
    rule = {name: text_of(f"{golly}/Rules/{name}.rule") for name in ("BriansBrain", "StarWars", "Langtons-Loops")}
    yield "a soup of Life, 64 by 64", LIFE, soup(64)
    yield "a soup of Life, 256 by 256", LIFE, soup(256)
    for side in (64, 256):
        yield f"a soup of Brian's Brain, {side} by {side}", rule["BriansBrain"], soup(side, "BriansBrain", ".", "AB")
    yield "a soup of Star Wars, 256 by 256", rule["StarWars"], soup(256, "StarWars", ".", "ABC")
    yield "Langton's loops", rule["Langtons-Loops"], text_of(f"{golly}/Patterns/Loops/Langtons-Loops.rle")


def put(program, rule, pattern, far):
    """How many blocks the program puts to the rule."""
    script = f"{begun(rule, pattern)}mark {far} counts\nsettle\nquit\n"
    with tempfile.TemporaryDirectory() as room:
        profile = os.path.join(room, "profile")
        words = ["valgrind", "--tool=callgrind", f"--callgrind-out-file={profile}", program, "--workers", "1"]
        told = subprocess.run(words, input=script.encode(), capture_output=True, check=True).stdout
        if b"settled" not in told.split():
            raise SystemExit(f"{program} told {told!r}")
        return calls(text_of(profile), "ask_four")


def calls(profile, function):
    """How often a function was called, by a profile, which has each name in full where it stands first."""
    known = {number for number, name in re.findall(r"^c?fn=(\(\d+\)) (.*)$", profile, re.M) if f"::{function}" in name}
    if not known:
        raise SystemExit(f"the program has no function {function} of its own")
    each = re.findall(r"^cfn=(\(\d+\)).*\ncalls=(\d+) ", profile, re.M)
    return sum(int(count) for number, count in each if number in known)


def blocks(rows, first):
    """The blocks of 4 by 4 cells that begin at each second column and row from the first on, by rows."""
    parts = [[bytes(row[x : x + 4]) for x in range(first, len(row) - 3, 2)] for row in rows]
    for y in range(first, len(rows) - 3, 2):
        yield zip(*parts[y : y + 4])


def different(program, rule, pattern, far):
    """How many different blocks stand in the generations before the last."""
    found = set()
    with Desk(program=program) as desk:
        desk.rule_text(rule)
        desk.start_text(pattern)
        bookmarks = [desk.mark(generation, "rle") for generation in range(far)]
        for generation, bookmark in enumerate(bookmarks):
            text = RunLengths(desk.show(bookmark))
            box = text.box()
            if box is not None:
                # From even coordinates on, and wide enough for each block with a live cell.
                left, top = (it - it % 2 - 4 for it in (box.x, box.y))
                rows = text.drawn(Frame(left, top, box.w + 10, box.h + 10, 1))
                found.update(*blocks(rows, generation % 2))
    return len(found)


def main():
    words = words_of(__doc__, golly=True)
    words.add_argument("--far", type=int, default=128)
    given = words.parse_args()
    print("| pattern | blocks put to the rule | different ones | ratio |")
    print("|---|---|---|---|")
    for name, rule, pattern in cases(given.golly):
        many, few = put(given.desk, rule, pattern, given.far), different(given.desk, rule, pattern, given.far)
        print(f"| {name}, to {given.far} | {many} | {few} | {many / few:.2f} |", flush=True)
    return 0


if __name__ == "__main__":
    sys.exit(main())
