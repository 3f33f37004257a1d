#!/usr/bin/env python3
"""Measures a day's session: edits of a soup with bookmarks up to generation 4,096, with looks at what is known.

    bench/day.py [--desk PROGRAM] [--edits 2000] [--pause 0.02] [--page]

Each edit changes a cell of the start of a soup of 256 by 256 places, and after a pause `poll` takes what was computed
meanwhile. So most bookmarks are pending most of the time, as for somebody who draws. With --page the edits go through
the page's session, which starts a program anew that has grown. A line for each tenth has the memory of the program, the
middle and the longest time of an edit, and how many programs there were.
"""
from __future__ import annotations

import asyncio
import statistics
import sys
import time
from pathlib import Path
from typing import List

sys.path.insert(0, str(Path(__file__).resolve().parents[1] / "clients/python/src"))
sys.path.insert(0, str(Path(__file__).resolve().parents[1] / "hostile"))

from desk.page.document import Bookmark, Document, File  # noqa: E402
from desk.page.painting import Place, painted  # noqa: E402
from desk.page.session import Session as PageSession  # noqa: E402
from desk.sweep.retelling import memory_of  # noqa: E402
from measuring import LIFE, soup, words_of  # noqa: E402
from session import started  # noqa: E402

SIDE, GENERATIONS, PARTS = 256, (16, 64, 256, 1024, 4096), 10


class Table:
    """The lines of a session, one for each tenth of its edits."""

    def __init__(self, edits: int) -> None:
        self.edits, self.count = edits, 0
        self.times: List[float] = []
        print("| edits | MB | ms an edit | longest ms | programs |\n|---|---|---|---|---|")

    def note(self, took: float, memory: int, programs: int) -> None:
        """Takes an edit."""
        self.count += 1
        self.times.append(1000 * took)
        if self.count % max(1, self.edits // PARTS) == 0:
            middle, longest = statistics.median(self.times), max(self.times)
            print(f"| {self.count} | {memory >> 20} | {middle:.2f} | {longest:.1f} | {programs} |", flush=True)
            self.times = []


def by_script(desk: str, edits: int, pause: float) -> None:
    """The session over the program alone."""
    table = Table(edits)
    with started(desk) as session:
        session.edit(b"rule\n" + LIFE.encode() + b"end", b"start rle\n" + soup(SIDE).encode() + b"\nend",
                     *(b"mark %d counts" % it for it in GENERATIONS))
        session.settle()
        for number in range(edits):
            begun = time.monotonic()
            session.edit(b"set %d %d %d" % (*spot(number), number // (SIDE * SIDE) % 2))
            session.ask(b"poll\n")
            took = time.monotonic() - begun
            time.sleep(pause)
            session.ask(b"poll\n")
            table.note(took, memory_of(session.process.pid), 1)


async def by_page(desk: str, edits: int, pause: float) -> None:
    """The same over the page's session."""
    table, session = Table(edits), PageSession([desk, "--workers", "2"])
    await session.begin()
    watch = asyncio.create_task(session.watch())
    marks = {it + 1: Bookmark(0, generation, "counts") for it, generation in enumerate(GENERATIONS)}
    start = File("start rle", "soup", soup(SIDE).encode() + b"\n")
    await session.edit(lambda _: Document(File("rule", "Life", LIFE.encode()), start, bookmarks=marks))
    for number in range(edits):
        begun = time.monotonic()
        cells = [(*spot(number), number // (SIDE * SIDE) % 2)]
        await session.edit(lambda old: painted(old, Place(0, 0), cells, session.new_id))
        took = time.monotonic() - begun
        await asyncio.sleep(pause)
        table.note(took, session.keeper.size, session.keeper.started)
    watch.cancel()
    await session.close()


def spot(number: int) -> List[int]:
    """The place of an edit: all of the soup, in an order in which neighbours lie far apart."""
    return [number * 101 % SIDE, number * 57 // SIDE % SIDE]


def main() -> None:
    words = words_of(__doc__)
    words.add_argument("--edits", type=int, default=2000)
    words.add_argument("--pause", type=float, default=0.02)
    words.add_argument("--page", action="store_true")
    given = words.parse_args()
    if given.page:
        asyncio.run(by_page(given.desk, given.edits, given.pause))
    else:
        by_script(given.desk, given.edits, given.pause)


if __name__ == "__main__":
    main()
