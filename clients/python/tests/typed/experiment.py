"""A small program as users write it. It is right under `mypy --strict` without a cast, and prints what is worked out
by hand: of a glider and a blinker under Life.
"""
from __future__ import annotations

from typing import Dict, List, Optional

from desk import Desk, Outcome, Show, View, Window, sweep

BLINKER, GLIDER = "x = 3, y = 1\n3o!\n", "x = 3, y = 3\nbo$2bo$3o!\n"


def population(desk: Desk, generation: int) -> int:
    return sum(desk.show(desk.mark(generation, "counts")).values())


def row(desk: Desk, generation: int, y: int) -> List[int]:
    return desk.show(desk.mark(generation, Window(0, y, 3, 1)))[0]


def head(desk: Desk) -> str:
    return desk.show(desk.mark(4, "rle"), timeout=60).splitlines()[0]


def known(desk: Desk) -> Optional[Dict[int, int]]:
    return desk.peek(desk.mark(0, "counts"))


def size(desk: Desk, view: View) -> int:
    shown = desk.show(desk.mark(4, view))
    return len(shown)


def moved(desk: Desk, generation: int) -> Show:
    desk.lifelike("B3/S23")
    desk.start_text(GLIDER)
    return Show(generation, "rle")


def main() -> None:
    with Desk() as desk:
        desk.lifelike("B3/S23")
        desk.start_text(BLINKER)
        print(population(desk, 1000), row(desk, 0, 0), row(desk, 1, 0), known(desk) in (None, {1: 3}))
        generation: int = desk.start_text(GLIDER)
        print(generation, head(desk), size(desk, "counts"), desk.settle().pending)
        print([bookmark.generation for bookmark in desk.list().bookmarks])
    outcomes: List[Outcome] = list(sweep(moved, [4, 8], ordered=True, jobs=1))
    print([str(it.value).splitlines()[0] for it in outcomes])


if __name__ == "__main__":
    main()
