"""A pattern that is open in Golly, evolved by the desk: what the scripts in the folder `golly` of a clone are made of.

Golly counts generations on from those of the pattern's file, and the desk from 0; here `generation` is Golly's count.
And what the desk calls row 0 of a macrocell text is row 1 in Golly. So a pattern is handed over one row higher than it
is in Golly, as a macrocell text is by itself, and what comes back is put one row lower.

As a program, `python3 -m desk.golly FOLDER`, it answers the file `question` there, for a script that isn't Python.
"""
from __future__ import annotations

import os
import re
import sys
import time
import warnings
from dataclasses import dataclass
from itertools import islice
from pathlib import Path
from typing import Callable, Dict, Iterator, List, NamedTuple, Optional, Sequence, Tuple

from .client import Desk
from .errors import Malformed, Pending, TimedOut, Trouble
from .formats.rle import box_of
from .rules.found import rule_named
from .words import Cell, Window

MOST_CELLS, MOST_SELECTED = 10_000, 65_536  # that an intervention sets, and that a window of the desk shows
FARTHEST = 10**9  # how far out Golly reads cells of an RLE text
REFUSED = 2  # the exit status where there is no answer
PAUSE = 0.2  # seconds between two times that it is told how far it is
POSITION = re.compile(rb"\A#CXRLE Pos=(-?\d+),(-?\d+)([^\n]*)\n")
Tell = Callable[[str], object]  # it is told how far it is, and may break it off by an exception


@dataclass(frozen=True)
class Layer:
    """What is open in Golly.

    pattern: its text as Golly saves it, RLE with its position or macrocell
    rule, algorithm: as Golly calls them
    generation: Golly's count
    selection: the selected cells as Golly numbers them, or None
    folders: where Golly has its rule files
    """

    pattern: bytes
    rule: str
    algorithm: str
    generation: int
    selection: Optional[Window]
    folders: Sequence[str]


class Evolved(NamedTuple):
    """A pattern for Golly to open: its text, whether that is a macrocell text, and Golly's count of generations."""

    text: str
    is_macrocell: bool
    generation: int


class Change(NamedTuple):
    """An intervention: its generation, and the cells as they are numbered in Golly, or a word for the selected ones."""

    generation: int
    cells: List[Cell]
    word: str = ""


def evolved(layer: Layer, to: str, changes: str, tell: Tell, program: Optional[str] = None) -> Evolved:
    """The pattern of a layer at a later generation, after interventions.

    to: the generation in words, as for `generation_of`
    changes: the interventions in words, as for `changes_of`

    Malformed: the words can't be read, or a generation lies before the present one.
    Trouble: the desk can't do it, with the reason.
    """
    goal = generation_of(to, layer.generation)
    found = changes_of(changes, layer.generation)
    with warnings.catch_warnings(), Desk(program) as desk:
        warnings.simplefilter("ignore")  # names of rules are Golly's own here
        _take_rule(desk, layer)
        desk.start_text(_moved(layer.pattern, -1), "the pattern")
        # What is restored is looked at before the first of them is there, which may act at once.
        for generation, cells in [(it.generation, _cells(desk, layer, it)) for it in found]:
            for part in _parts(cells):
                desk.at(generation - layer.generation, part)
        text = _shown(desk, goal - layer.generation, "rle", tell)
        if _is_for_rle(text):
            return Evolved(_headed(text, layer.rule, goal), False, goal)
        text = _shown(desk, goal - layer.generation, "mc", tell)
        # By this rule Golly reads macrocell texts whose cells stand one by one; its own is set afterwards.
        rule = "B3/S23" if layer.algorithm in ("QuickLife", "HashLife") else layer.rule
        return Evolved(re.sub(r"(?m)^#R .*$", lambda _: f"#R {rule}", text, count=1), True, goal)


def generation_of(words: str, now: int) -> int:
    """The generation that somebody typed: 1000, 1,000, 1e6, 2^40, or +500 for so many after the present one.

    Malformed: it can't be read, or lies before the present one.
    """
    found = re.fullmatch(r"(\+?)(\d{1,40})(?:\^(\d{1,2})|[eE](\d{1,2}))?", re.sub(r"[\s,_]", "", words))
    if not found:
        raise Malformed(f"`{words.strip()}` is no generation; type one as 1000, 2^40, or +500 for so many more")
    number: int = int(found[2]) ** int(found[3] or 1) * 10 ** int(found[4] or 0)
    goal = now + number if found[1] else number
    if goal < now:
        raise Malformed(f"generation {goal} lies before the present one, which is {now}")
    return goal


def changes_of(words: str, now: int) -> List[Change]:
    """The interventions that somebody typed, with `;` between.

    Each is a generation, a colon, and cells as `x y state x y state ..`; or `clear`, by which the selected cells get
    state 0, or `restore`, by which they get the states again that they have at present.

    Malformed: one can't be read.
    """
    return [_change(part, now) for part in words.split(";") if part.strip()]


def _change(words: str, now: int) -> Change:
    when, _, what = words.partition(":")
    said = what.split()
    if said in (["clear"], ["restore"]):
        return Change(generation_of(when, now), [], said[0])
    if not said or len(said) % 3 or not all(re.fullmatch(r"-?\d+", it) for it in said):
        raise Malformed(f"`{words.strip()}` is no intervention; type one as `24: 9 2 0`, which sets the cell (9, 2) to "
                        "state 0 at generation 24, or as `24: clear` or `24: restore` for the selected cells")
    numbers = iter(map(int, said))
    return Change(generation_of(when, now), list(zip(numbers, numbers, numbers)))


def _take_rule(desk: Desk, layer: Layer) -> None:
    """Takes the rule file of the name that a layer has, or the rule that the name says."""
    for folder in layer.folders:
        path = os.path.join(folder, f"{layer.rule}.rule")
        if os.path.isfile(path):
            desk.rule(path)
            return
    found = rule_named(layer.rule)
    desk.rule_text(found.text, found.name)


def _moved(pattern: bytes, rows: int) -> bytes:
    """An RLE text with another position. A macrocell text has none."""
    return POSITION.sub(lambda it: b"#CXRLE Pos=%d,%d%s\n" % (int(it[1]), int(it[2]) + rows, it[3]), pattern)


def _cells(desk: Desk, layer: Layer, change: Change) -> List[Cell]:
    """The cells that an intervention sets, as the desk numbers them."""
    if not change.word:
        return [(x, y - 1, state) for x, y, state in change.cells]
    if not layer.selection:
        raise Malformed(f"no cells are selected for `{change.word}`")
    x, y, width, height = layer.selection
    if width * height > MOST_SELECTED:
        raise Malformed(f"{width} by {height} cells are selected, and `{change.word}` takes up to {MOST_SELECTED:,}")
    rows = [[0] * width] * height
    if change.word == "restore":
        bookmark = desk.mark(0, Window(x, y - 1, width, height))
        rows = desk.show(bookmark)
        desk.unmark(bookmark)
    return [(column, row, state) for row, states in enumerate(rows, y - 1) for column, state in enumerate(states, x)]


def _parts(cells: List[Cell]) -> Iterator[List[Cell]]:
    """The cells in parts of which each fits into an intervention."""
    left = iter(cells)
    while part := list(islice(left, MOST_CELLS)):
        yield part


def _shown(desk: Desk, generation: int, view: str, tell: Tell) -> str:
    """The text of the pattern at a generation; it is told how far that is."""
    began, bookmark = time.monotonic(), desk.mark(generation, view)
    while True:
        tell(f"the desk computes, {time.monotonic() - began:.0f} s (Escape breaks it off)")
        try:
            return str(desk.show(bookmark, timeout=PAUSE))
        except TimedOut:
            pass
        except Pending:
            raise Trouble("the generation isn't computed, since memory or squares ran out; try one that is nearer"
                          ) from None


def _is_for_rle(text: str) -> bool:
    """Whether Golly can read an RLE text of the desk: there is one, and its cells aren't too far out."""
    box = box_of(text)
    return box is not None and all(abs(it) <= FARTHEST for it in (box.x, box.y, box.x + box.w, box.y + box.h))


def _headed(text: str, rule: str, generation: int) -> str:
    """An RLE text of the desk with the position, the generation and the rule that Golly has."""
    x, y, *_ = box_of(text) or Window(0, 0, 0, 0)
    _, size, cells = text.split("\n", 2)
    return f"#CXRLE Pos={x},{y + 1} Gen={generation}\n{size.partition(', rule')[0]}, rule = {rule}\n{cells}"


def layer_of(question: str) -> Tuple[Layer, Dict[str, str]]:
    """The layer that the lines of a question say, each a word and what belongs to it, and these by their words."""
    lines = [line.partition(" ")[::2] for line in question.splitlines()]
    said = dict(lines)
    selection = Window(*map(int, said["selection"].split())) if "selection" in said else None
    folders = [value for word, value in lines if word == "folder"]
    pattern = Path(said["pattern"]).read_bytes()
    return Layer(pattern, said["rule"], said["algorithm"], int(said["generation"]), selection, folders), said


def main() -> int:
    """Answers the question in a folder by the file `answer` there, or says on standard output why there is none.

    The exit status is 2 then. Where the file `stop` comes to be there, it is broken off.
    """
    folder = Path(sys.argv[1])

    def tell(words: str) -> None:
        if (folder / "stop").exists():
            raise Trouble("it was broken off")
        (folder / "progress").write_text(words, encoding="utf-8")

    try:
        layer, said = layer_of((folder / "question").read_text(encoding="utf-8"))
        found = evolved(layer, said["to"], said["changes"], tell)
        (folder / "answer").write_text(found.text, encoding="latin-1")
        print("macrocell" if found.is_macrocell else "rle", found.generation)
    except (Trouble, OSError) as fault:
        print(fault)
        return REFUSED
    return 0


if __name__ == "__main__":
    sys.exit(main())
