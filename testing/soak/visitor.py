"""Somebody who uses the page at random: paints, pastes, marks, drags, goes back and loads it anew.

What the page then shows is compared with a fresh program that gets the document's script, and each undoing with the
script that was there before.
"""
from __future__ import annotations

import random
import subprocess
import time
import unittest
from typing import Any, Callable, Dict, List, Tuple

from desk.sweep.retelling import memory_of
from page_browser import ActionChains, InBrowser, Keys
from places import EXAMPLES
from test_page_browser import CELLS, windows

from .found import Difference, Found

FEWEST, MOST = 10, 80
# How many actions lie between two comparisons, how many branches there may be, and how far the visitor goes.
EACH, MOST_BRANCHES, FARTHEST = 4, 4, 120
# How many times as long as a test something may take, on a machine that has other things to do.
PATIENCE = 10
SEED = "soak"
# Counts what the page has asked its server and was answered, and keeps the longest time of an answer.
WATCHED = """
Object.assign(window, { asked: 0, answered: 0, slowest: 0 });
const ask = app.link.ask.bind(app.link);
app.link.ask = async (...words) => {
  const begun = performance.now();
  window.asked++;
  const reply = await ask(...words);
  window.answered++;
  window.slowest = Math.max(window.slowest, performance.now() - begun);
  return reply;
};
"""
IS_IDLE = "asked === answered && app.panes.every((it) => it.unsure.every((stroke) => stroke.isDone))"
SCRIPT = "fetch('experiment.script?copy').then((it) => it.text()).then(arguments[0])"


class Visitor(InBrowser):  # type: ignore[misc]
    """A visit, as a test that a browser runs."""

    # A second try is made by `visited`, which counts it.
    run = unittest.TestCase.run

    def __init__(self, seed: int, seconds: float) -> None:
        super().__init__("visit")
        self.chance, self.seconds = random.Random(f"{SEED}/{seed}"), seconds
        self.scripts: Dict[int, str] = {}  # of each document that undoing and redoing lead to, by how many edits
        self.depth = 0
        self.found = Found()
        self.did: List[str] = []

    @classmethod
    def visited(cls, seed: int, seconds: float) -> Found:
        """What a visit found. One that isn't right is made once more, since a browser may lose a click."""
        for is_last in (False, True):
            visitor, result = cls(seed, seconds), unittest.TestResult()
            try:
                visitor.run(result)
            finally:
                visitor.doCleanups()
            if result.wasSuccessful():
                break
            if is_last:
                why = "".join(text for _, text in [*result.errors, *result.failures])
                script = visitor.scripts.get(visitor.depth, "").encode("latin-1", "replace")
                visitor.found.differences.append(Difference(seed, f"{visitor.did}\n{why}", script))
        return visitor.found

    def comes(self, words: str, seconds: float) -> bool:
        return bool(super().comes(words, PATIENCE * seconds))

    def visit(self) -> None:
        """The whole visit."""
        end = time.monotonic() + self.seconds
        server = self.begin()
        for count in range(MOST):
            if count >= FEWEST and time.monotonic() > end:
                break
            self.act()
            if count % EACH == EACH - 1:
                self.compare()
        self.compare()
        self.found.slowest = max(self.found.slowest, self.js("return slowest") / 1000)
        self.found.memory = self.memory_of_program(server.pid)

    def begin(self) -> Any:
        name = self.chance.choice(("wire", "brain", "soup"))
        server = self.life(24) if name == "soup" else self.open(EXAMPLES / f"{name}.rule", EXAMPLES / f"{name}.rle")
        kinds = ["clipboardReadWrite", "clipboardSanitizedWrite"]
        self.browser.execute_cdp_cmd("Browser.grantPermissions", {"permissions": kinds})
        self.js(WATCHED)
        self.js("Object.assign(app.camera, { zoom: 4, x: 10n, y: 5n }); app.changed()")
        self.remember("nothing")
        return server

    @staticmethod
    def memory_of_program(server: int) -> int:
        """How many bytes the program behind a page's server takes."""
        children = subprocess.run(["pgrep", "-P", str(server)], stdout=subprocess.PIPE, text=True, check=False)
        return max([memory_of(int(it)) for it in children.stdout.split()], default=0)

    def act(self) -> None:
        """One of the actions, and the document behind it."""
        ways: Tuple[Tuple[int, Callable[[], None]], ...] = (
            (10, self.paint), (4, self.paste), (4, self.mark), (2, self.branch), (8, self.go), (3, self.drag_bookmark),
            (2, self.remove), (6, self.undo), (4, self.redo), (2, self.load_again))
        [(_, action)] = self.chance.choices(ways, [weight for weight, _ in ways])
        self.did.append(action.__name__)
        action()
        self.remember(action.__name__)

    def remember(self, what: str) -> None:
        """Wants undoing and redoing to lead back to a document, and keeps the one that an edit has made."""
        self.until(IS_IDLE)
        depth = self.js("return app.state.undo")
        script = self.browser.execute_async_script(SCRIPT)
        if depth > self.depth and what != "redo":
            self.scripts = {it: text for it, text in self.scripts.items() if it <= self.depth}
        self.assertEqual(self.scripts.setdefault(depth, script), script, (what, depth))
        self.found.runs += depth != self.depth
        self.depth = depth

    def compare(self) -> None:
        """Wants the page to show what a fresh program shows that gets the script."""
        self.press(Keys.ESCAPE, Keys.ESCAPE)
        branch, generation = self.js("return [app.pane.branch, Number(app.pane.generation)]")
        self.until("app.state.bookmarks.every((it) => it.isCurrent)")
        self.until_known(branch, generation)
        x, y, w, h, found = self.js(CELLS, 0)
        number = [0, *sorted(it["id"] for it in self.js("return app.state.branches"))].index(branch)
        script = self.scripts[self.depth].encode("latin-1")
        known = self.js("return app.state.bookmarks.length")
        [rows] = windows(script, [(number, generation)], f"{x} {y} {w} {h}", known)
        colors = [",".join(map(str, it)) for it in self.js("return app.pane.colors")]
        wanted = [colors[state] for row in rows for state in row]
        wrong = [(it % w + x, it // w + y) for it, color in enumerate(found) if color != wanted[it]]
        self.assertEqual(wrong, [], f"cells of branch {branch} at generation {generation}")

    # Actions.

    def spot(self) -> Tuple[int, int]:
        """A cell in sight, some cells from the picture's edge."""
        return self.chance.randint(0, 20), self.chance.randint(0, 10)

    def paint(self) -> None:
        self.press(str(self.chance.randrange(self.js("return app.state.states"))))
        chain = self.at(*self.spot()).click_and_hold()
        for _ in range(self.chance.randint(0, 3)):
            chain = chain.move_by_offset(self.chance.randint(-60, 60), self.chance.randint(-40, 40))
        chain.release().perform()

    def paste(self) -> None:
        """Selects, copies, pastes, and places what was copied."""
        w, h = self.chance.randint(2, 8), self.chance.randint(2, 5)
        chain = self.at(*self.spot()).key_down(Keys.SHIFT).click_and_hold()
        chain.move_by_offset(8 * w, 8 * h).move_by_offset(8 * w, 8 * h).release().key_up(Keys.SHIFT).perform()
        self.until("app.selection.box && app.selection.known()")
        self.control("c")
        self.until("document.getElementById('status').textContent.includes('Copied')")
        self.control("v")
        self.until("app.ghost.pattern")
        self.at(*self.spot()).click().perform()
        self.press(Keys.ESCAPE, Keys.ESCAPE)

    def control(self, key: str) -> None:
        ActionChains(self.browser).key_down(Keys.CONTROL).send_keys(key).key_up(Keys.CONTROL).perform()

    def mark(self) -> None:
        self.press("m")

    def branch(self) -> None:
        if self.js("return app.state.branches.length") < MOST_BRANCHES:
            self.press("b")
            self.until(IS_IDLE)
            self.until("!app.state.branches.length || app.pane.branch === app.state.branches.at(-1).id")

    def go(self) -> None:
        """Goes on or back by keys, or to a generation of any branch."""
        if self.chance.random() < 0.5:
            self.press(self.chance.choice(",.."))
            return
        branch = self.chance.choice([0, *self.js("return app.state.branches.map((it) => it.id)")])
        self.js(f"app.go({{ branch: {branch}, generation: {self.chance.randint(0, FARTHEST)}n }})")

    def drag_bookmark(self) -> None:
        there = self.js("return app.state.bookmarks.map((it) => it.id)")
        if there:
            self.drag(f"[data-key='bookmarks {self.chance.choice(there)}']", self.chance.randint(-90, 90))

    def remove(self) -> None:
        kind = self.chance.choice(("bookmarks", "interventions", "branches"))
        there = self.js(f"return app.state.{kind}.map((it) => it.id)")
        if there:
            self.js(f"app.edits.remove('{kind}', {self.chance.choice(there)})")

    def undo(self) -> None:
        self.press(*"z" * self.chance.randint(1, 4))

    def redo(self) -> None:
        self.press(*"y" * self.chance.randint(1, 3))

    def load_again(self) -> None:
        self.found.slowest = max(self.found.slowest, self.js("return slowest") / 1000)
        self.browser.refresh()
        self.until("window.app && app.state.epoch >= 0 && app.isOpen")
        self.js(WATCHED)
