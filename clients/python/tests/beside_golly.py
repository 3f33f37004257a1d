"""What tests need that compare with bgolly: running it, and the cells of the texts that it and the desk write."""
from __future__ import annotations

import re
import shutil
import subprocess
import tempfile
from pathlib import Path

GOLLY = "/usr/share/golly"
IS_HERE = bool(shutil.which("bgolly")) and Path(GOLLY, "Patterns").is_dir()


def rle_of(rows, rule, left=0, top=0):
    """The RLE text of rows of states, whose upper left cell lies there."""
    body = "$\n".join("".join(map(letter_of, row)) for row in rows)
    return f"#CXRLE Pos={left},{top}\nx = {len(rows[0])}, y = {len(rows)}, rule = {rule}\n{body}!\n"


def cells_after(text, generation, engine, ending="rle"):
    """The states of the live cells of a pattern's text after so many generations, by their places."""
    with tempfile.TemporaryDirectory() as room:
        path = Path(room, f"pattern.{ending}")
        path.write_text(text, encoding="latin-1")
        return cells_of(written(path, generation, engine, "mc"), 1)


def written(path, generation, engine, ending, begun=0):
    """The text, RLE or macrocells, that bgolly writes of a pattern file at a generation; the file's own is `begun`."""
    with tempfile.TemporaryDirectory() as room:
        out = Path(room, f"out.{ending}")
        words = ["bgolly", "-q", "-q", "-a", engine, "-s", f"{GOLLY}/Rules/", "-i", str(max(generation - begun, 1))]
        words += ["-m", str(generation), "-o", str(out), str(path)]
        told = subprocess.run(words, capture_output=True, text=True, timeout=300, check=False)
        if not out.exists():
            raise AssertionError(f"{' '.join(words)}: {told.stdout} {told.stderr}")
        return out.read_text(encoding="latin-1")


def cells_of(macrocell, down=0):
    """The states of the live cells of a macrocell text, by their places; Golly's lie `down` by 1 against ours."""
    nodes = [(0, ())]
    for line in macrocell.splitlines()[1:]:
        if line[:1] in (".", "*", "$"):
            rows = line.split("$")
            nodes.append((3, [(x, y, 1) for y, row in enumerate(rows) for x, sign in enumerate(row) if sign == "*"]))
        elif line[:1].isdigit():
            level, *kids = map(int, line.split())
            nodes.append((level, kids))
    level = nodes[-1][0]
    corner = -(1 << level >> 1)
    left, found = [(len(nodes) - 1, corner, corner + down)], {}
    while left:
        number, x, y = left.pop()
        level, kids = nodes[number]
        for index, kid in enumerate(kids):
            if isinstance(kid, tuple):
                found[x + kid[0], y + kid[1]] = kid[2]
                continue
            place = x + (index % 2 << level >> 1), y + (index // 2 << level >> 1)
            if level == 1 and kid:
                found[place] = kid
            elif kid:
                left.append((kid, *place))
    return found


def tree_of(rule_text):
    """The next state of a cell by a rule's text with a @TREE, as a function of the states that the tree asks for."""
    nodes = [tuple(map(int, line.split())) for line in rule_text.split("\n") if re.match(r"[0-9]", line)]

    def following(*states):
        number = len(nodes) - 1
        for state in states:
            number = nodes[number][1 + state]
        return number

    return following


def letter_of(state):
    """A state as RLE writes it."""
    if state == 0:
        return "."
    high, low = divmod(state - 1, 24)
    return (chr(ord("o") + high) if high else "") + chr(ord("A") + low)
