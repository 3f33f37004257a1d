"""Tests of running until something is so: the search by itself, and on the page."""
import asyncio
import subprocess
import time
import unittest

from page_browser import InBrowser
from places import EXAMPLES, PROGRAM
from test_page_with import LIFE, here_or_elsewhere

try:
    from desk.page.search import Found, Shape, comes_again, goal_of, reach, shape_of
    from desk.words import Window
except ImportError:
    reach = None

GLIDER = b"x = 3, y = 3, rule = B3/S23\nbo$2bo$3o!\n"
FARTHEST = 2 ** 60


def load_tests(loader, tests, pattern):
    return here_or_elsewhere(tests, ["aiohttp", "selenium"], __file__)


class History:
    """Texts of generations as a test says them, and which were asked for."""

    def __init__(self, text):
        self.text, self.asked = text, []

    async def look(self, generation, view):
        self.asked.append(generation)
        return self.text(generation)


def mc(cells):
    """The macrocell text of cells within 16 by 16 round (0, 0), each a place."""
    lines = ["[M2] (desk)", "#R X", "#G 9"]

    def square(level, x, y):
        if not level:
            return int((x, y) in cells)
        half = 1 << level >> 1
        kids = [square(level - 1, *at) for at in ((x, y), (x + half, y), (x, y + half), (x + half, y + half))]
        lines.append(" ".join(map(str, (level, *kids))))
        return len(lines) - 3

    square(4, -8, -8)
    return "\n".join(lines) + "\n"


class SearchTest(unittest.TestCase):
    def run_until(self, goal, text, start=0, last=FARTHEST):
        history = History(text)
        return asyncio.run(reach(goal, history.look, start, last, lambda it: None)), history.asked

    def test_a_population_is_found_at_its_generation(self):
        for wanted in (1, 2, 3, 64, 1000, 1023, 1024, 1025, 10 ** 12):
            found, asked = self.run_until(goal_of("least", wanted, None), lambda it: f"1 {it}\n")
            self.assertEqual(found, Found(wanted))
            self.assertLess(len(asked), 2 * wanted.bit_length() + 3)
            dies = lambda it, wanted=wanted: "empty\n" if it >= wanted else "2 1\n"  # noqa: E731
            found, _ = self.run_until(goal_of("empty", 0, None), dies)
            self.assertEqual(found, Found(wanted))
        self.assertEqual(self.run_until(goal_of("most", 7, None), lambda it: f"1 {100 - it}\n3 0\n", 20)[0], Found(93))
        self.assertEqual(self.run_until(goal_of("least", 5, None), lambda it: "1 9\n", 3)[0], Found(3))
        found, asked = self.run_until(goal_of("least", 5, None), lambda it: "1 4\n", 3, 20)
        self.assertEqual((found, asked[-1]), (None, 20))

    def test_a_state_in_a_window(self):
        goal = goal_of("state", 12, Window(0, 0, 3, 1))
        self.assertEqual(goal.view, Window(0, 0, 3, 1))
        self.assertEqual(self.run_until(goal, lambda it: "0 12 0\n" if it >= 9 else "1 2 112\n")[0], Found(9))

    def test_the_shape_of_a_pattern_wherever_it_lies(self):
        one, other = shape_of(mc({(-3, 0), (-2, 2)})), shape_of(mc({(4, -5), (5, -3)}))
        self.assertEqual((one.corner, other.corner), ((-3, 0), (4, -5)))
        self.assertEqual(one.cells, other.cells)
        self.assertNotEqual(one.cells, shape_of(mc({(4, -5), (5, -4)})).cells)
        self.assertEqual(shape_of(mc(())), Shape((0, 0), ()))

    def test_periods_and_shifts_and_when_they_begin(self):
        cases = [(1, 0, 0), (2, 0, 1), (3, 0, 0), (7, 5, 0), (23, 0, 0), (46, 300, 0), (41, 1, 0), (30, 40, 2),
                 (4, 1000, 1)]
        for period, begins, moved in cases:
            def text(generation, period=period, begins=begins, moved=moved):
                if generation < begins:
                    return mc({(-8, 6), (7, 6), *((it - 8, 7) for it in range(14) if generation >> it & 1)})
                phase, turns = (generation - begins) % period, (generation - begins) // period
                at = turns * moved % 2 if moved else 0  # it moves to and fro, since the square has bounds
                cells = {(at - 8, -8), (at - 7, -7), (at - 8 + 2 + phase % 5, phase // 5 - 8)}
                return mc(cells)

            history = History(text)
            found = asyncio.run(comes_again(history.look, 0, FARTHEST, lambda it: None))
            self.assertEqual((found.period, found.generation), (period, begins), (period, begins))
            self.assertLess(len(history.asked), 80)
        long = History(lambda it: mc({(-8, 6), (7, 6), *((bit - 8, 7) for bit in range(14) if it % 43 >> bit & 1)}))
        found = asyncio.run(comes_again(long.look, 0, FARTHEST, lambda it: None))  # 43 is beyond the factors
        self.assertIsNone(found)


class UntilTest(InBrowser):
    def until_said(self, words, seconds=15):
        self.until(f"document.querySelector('#until output').textContent.includes({words!r})", seconds)

    def begin(self, kind, number=None, last=""):
        self.js("""
            const [kind, number, last] = arguments, [select] = document.querySelectorAll("#until select");
            document.getElementById("until").open = true;
            select.value = kind;
            select.dispatchEvent(new Event("change"));
            document.querySelector("#until [name=until-last]").value = last;
            if (number !== null) document.querySelector("#until [name=until-number]").value = number;
            """, kind, number, last)
        self.click(self.find("#until button"))

    def glider(self, *cells):
        for name, data in (("life.rule", LIFE), ("glider.rle", GLIDER)):
            (self.folder / name).write_bytes(data)
        self.open(self.folder / "life.rule", self.folder / "glider.rle")
        self.until_known(0, 0)

    def test_until_a_population_a_state_and_an_empty_plane(self):
        self.open(EXAMPLES / "brain.rule", EXAMPLES / "brain.rle")
        self.until_known(0, 0)
        self.press("u")
        self.assertTrue(self.js("return document.getElementById('until').contains(document.activeElement)"))
        self.begin("least", "300")
        self.until_said("It is so at generation")
        at = self.js("return Number(app.pane.generation)")
        self.assertGreater(at, 5)
        script, counts = self.script().encode(), []
        for generation in (at - 1, at):
            shown = self.run_program(script + f"mark {generation} counts\nshow 1\n".encode())
            counts.append(sum(int(it.split()[1]) for it in shown[1:]))
        self.assertLess(counts[0], 300)
        self.assertGreaterEqual(counts[1], 300)
        self.js("app.go({ generation: 0n })")
        self.begin("state", "2")
        self.until_said("Select where")
        self.js("app.selection.set({ x: 20n, y: -20n }, { x: 30n, y: -10n })")
        self.begin("state", "2")
        self.until_said("It is so at generation")
        self.until_known(0, self.js("return Number(app.pane.generation)"))
        states = self.browser.execute_async_script(
            "app.selection.pattern().then((it) => arguments[0]([...it.states]))")
        self.assertIn(2, states)
        self.begin("empty", None, "500")
        self.until_said("at none of the generations")
        self.js("app.ask('new')")
        self.until("app.state.undo === 1 && document.querySelector('#census').textContent === 'population 0box none'")
        self.js("app.ask('paint', { branch: 0, generation: '0', cells: [[0, 0, 1]] })")
        self.until("app.state.undo === 2")
        self.begin("empty")
        self.until_said("It is so at generation 2.")  # it fires, rests, and is gone
        self.begin("least", "many")
        self.until("document.querySelector('#until [name=until-number]').ariaInvalid === 'true'")

    def run_program(self, script):
        run = subprocess.run([PROGRAM], input=script, capture_output=True, check=True, timeout=60)
        lines = run.stdout.decode().splitlines()
        return lines[[place for place, it in enumerate(lines) if it.startswith("bookmark ")][-1]:]

    def test_until_the_pattern_comes_again(self):
        self.glider()
        self.begin("again")
        self.until_said("The pattern of generation 0 comes again after 4 generations, each time moved by (1, 1)", 60)
        self.js("app.ask('paint', { branch: 0, generation: '9', cells: [['50', '50', 1]] })")
        self.until("app.state.undo === 1")
        self.begin("again")
        self.until_said("intervention 1 acts after generation 0")
        self.js("app.ask('undo')")
        self.until("app.state.undo === 0")
        self.js("app.ask('new')")
        self.until("app.state.undo === 1")
        self.js("app.ask('paint', { branch: 0, generation: '0', cells: [[0, 0, 1], [0, 1, 1], [0, 2, 1], [1, 1, 1]] })")
        self.until("app.state.undo === 2")  # it becomes four blinkers
        self.begin("again")
        self.until_said("The pattern of generation 9 comes again after 2 generations.", 60)
        self.assertEqual(self.js("return Number(app.pane.generation)"), 9)
        self.js("app.ask('paint', { branch: 0, generation: '0', cells: [[7, 7, 1]] })")  # it is another pattern now
        self.until("document.querySelector('#until output').textContent === ''")

    def test_a_search_is_cancelled_and_ends_where_the_experiment_changes(self):
        self.life(800)
        self.until_known(0, 0)
        self.begin("empty")
        self.until_said("searching: generation")
        self.until("app.state.pending > 0")
        self.assertEqual(self.find("#until button").text, "Cancel")
        self.click(self.find("#until button"))
        self.until_said("was cancelled")
        time.sleep(0.3)
        self.js("window.told = 0; app.until.take = function (it) { window.told++; return Object.getPrototypeOf(this)"
                ".take.call(this, it); }")
        time.sleep(1.5)
        self.assertEqual(self.js("return window.told"), 0)  # nothing is looked at any more
        self.begin("empty")
        self.until_said("searching: generation")
        self.js("app.ask('paint', { branch: 0, generation: '0', cells: [['0', '0', 1]] })")
        self.until_said("the experiment was changed meanwhile")
        self.until("JSON.stringify(app.state.bookmarks) === '[]'")


if __name__ == "__main__":
    unittest.main()
