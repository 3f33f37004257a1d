#!/usr/bin/env python3
"""Compares von Neumann's, Nobili's and Hutton's automata with bgolly in each neighbourhood that there is.

There are 29 or 32 to the power of 5, so it takes some ten minutes for each of the three. Crosses of five cells fill the
plane without a gap, and so one pattern asks bgolly for as many neighbourhoods as it has crosses.

    PYTHONPATH=clients/python/src clients/python/tests/neumann_neighbourhoods.py JvN29
"""
from __future__ import annotations

import argparse
import re
import sys
import tempfile
from itertools import islice, product
from math import isqrt
from pathlib import Path

from beside_golly import letter_of, tree_of, written
from desk.rules import hutton, neumann, nobili

RULES = {"JvN29": neumann.rule_text, "Nobili32": nobili.rule_text, "Hutton32": hutton.rule_text}
STATES = {"JvN29": 29, "Nobili32": 32, "Hutton32": 32}
AT_ONCE = 400_000
FRAME = 9  # a quiet arrow, which stays; four of them say where the pattern's corners are


def golly_s(rule, neighbourhoods):
    """What bgolly makes of the middle cells of neighbourhoods, each the states of n, w, e, s and c as a tree asks."""
    side = isqrt(5 * len(neighbourhoods)) + 10
    inner = range(3, side - 3)
    middles = [(x, y) for y in inner for x in inner if (x + 2 * y) % 5 == 0][:len(neighbourhoods)]
    rows = [bytearray(side) for _ in range(side)]
    for (x, y), (n, w, e, s, c) in zip(middles, neighbourhoods):
        rows[y - 1][x], rows[y][x - 1], rows[y][x + 1], rows[y + 1][x], rows[y][x] = n, w, e, s, c
    for y in (0, -1):
        rows[y][0] = rows[y][-1] = FRAME
    with tempfile.TemporaryDirectory() as room:
        path = Path(room, "all.rle")
        letters = [letter_of(state) for state in range(32)]
        body = "$\n".join("".join(letters[state] for state in row) for row in rows)
        path.write_text(f"x = {side}, y = {side}, rule = {rule}\n{body}!\n", encoding="ascii")
        after = rows_of(written(path, 1, "JvN", "rle"), side)
    return [after[y][x] for x, y in middles]


def rows_of(rle, side):
    """The rows of an RLE text of bgolly's whose box is a square of this side."""
    header, body = re.fullmatch(r"(?s)(?:#[^\n]*\n)*(x[^\n]*)\n(.*)", rle).groups()
    if not header.startswith(f"x = {side}, y = {side},"):
        raise AssertionError(f"the frame is lost: {header}")
    states, rows = {letter_of(state): state for state in range(32)}, [bytearray(side) for _ in range(side)]
    x = y = 0
    for count, item in re.findall(r"([0-9]*)(p?[A-X]|[.$!])", body):
        many = int(count or 1)
        if item == "$":
            x, y = 0, y + many
        elif item != "!":
            rows[y][x:x + many] = bytes([states[item]]) * many
            x += many
    return rows


def main():
    words = argparse.ArgumentParser(description=__doc__, formatter_class=argparse.RawDescriptionHelpFormatter)
    words.add_argument("rule", choices=RULES)
    rule = words.parse_args().rule
    following, left, done = tree_of(RULES[rule]()), product(range(STATES[rule]), repeat=5), 0
    while True:
        asked = list(islice(left, AT_ONCE))
        if not asked:
            print(f"{rule}: all {done} neighbourhoods are as in bgolly")
            return 0
        for states, theirs in zip(asked, golly_s(rule, asked)):
            if following(*states) != theirs:
                print(f"{rule}: n w e s c {states} becomes {following(*states)}, and {theirs} in bgolly")
                return 1
        done += len(asked)
        print(f"{rule}: {done} of {STATES[rule] ** 5}", file=sys.stderr)


if __name__ == "__main__":
    sys.exit(main())
