"""Tests of why a cell is so: what is told by the server, and the panel of the page."""
import time
import unittest

from page_browser import DROP, ActionChains, By, InBrowser, Keys
from places import EXAMPLES
from test_page_with import LIFE, here_or_elsewhere

try:
    from desk.page.document import Branch, Document, File, Intervention
    from desk.page.painting import Place
    from desk.page.why import Origin, origin_of, reason_of
except ImportError:
    origin_of = None

WIRE = EXAMPLES / "wire.rule"
# Two states around in a hexagonal neighbourhood; a cell that has one in the south east becomes it, whichever way.
HEXAGONAL = """@RULE Hexes
@TABLE
n_states:3
neighborhood:hexagonal
symmetries:rotate6
var a={0,1,2}
var b={a}
var c={a}
var d={a}
var e={a}
var f={1,2}
0,a,b,c,f,d,e,f
"""
FOUR = """@RULE Four
@TABLE
n_states:3
neighborhood:vonNeumann
symmetries:none
0,0,0,0,1,2
"""
HEXES = "x = 5, y = 5\n5.$5.$2.A2.!\n"


def load_tests(loader, tests, pattern):
    return here_or_elsewhere(tests, ["aiohttp", "selenium"], __file__)


class OriginTest(unittest.TestCase):
    def test_where_a_state_is_from(self):
        once = Intervention(1, 30, 0, 30, ((5, 5, 1), (6, 5, 0)))
        document = Document(
            branches={1: Branch(0, 20), 2: Branch(1, 30), 3: Branch(0, 0)},
            interventions={4: Intervention(0, 20, 10, 60, ((1, 1, 2),)), 5: Intervention(0, 40, 0, 40, ((1, 1, 1),)),
                           6: once, 7: Intervention(2, 30, 0, 30, ((7, 7, 1),)),
                           8: Intervention(0, 0, 0, 0, ((2, 2, 1),))})
        cases = [
            (0, 0, (1, 1), Origin("start", 0)), (0, 0, (2, 2), Origin("intervention", 0, 8)),
            (3, 0, (2, 2), Origin("intervention", 0, 8)), (3, 0, (1, 1), Origin("start", 0)),
            (3, 1, (1, 1), Origin("step", 3)),
            (0, 1, (1, 1), Origin("step", 0)), (0, 30, (1, 1), Origin("intervention", 0, 4)),
            (0, 40, (1, 1), Origin("intervention", 0, 5)), (0, 35, (1, 1), Origin("step", 0)),
            (0, 70, (1, 1), Origin("step", 0)), (1, 20, (1, 1), Origin("intervention", 0, 4)),
            (1, 20, (9, 9), Origin("step", 0)), (1, 30, (1, 1), Origin("step", 1)),
            (1, 30, (6, 5), Origin("intervention", 1, 6)), (2, 30, (6, 5), Origin("intervention", 1, 6)),
            (2, 30, (7, 7), Origin("intervention", 2, 7)), (2, 30, (8, 8), Origin("step", 1)),
            (2, 31, (7, 7), Origin("step", 2)),
        ]
        for branch, generation, cell, wanted in cases:
            self.assertEqual(origin_of(document, Place(branch, generation), cell), wanted, (branch, generation, cell))

    def test_reasons_as_the_page_gets_them(self):
        wire = File("rule", "wire.rule", WIRE.read_bytes())
        found = reason_of(wire, [1, 3, 0, 0, 0, 2, 0, 0, 0])
        self.assertEqual((found["kind"], found["line"], found["state"], found["shape"]), ("line", 21, 2, "Moore"))
        self.assertEqual(found["places"], ["c", "n", "ne", "e", "se", "s", "sw", "w", "nw"])
        self.assertEqual(reason_of(wire, [3, 1, 1, 1, 0, 0, 0, 0, 0])["kind"], "stays")
        self.assertEqual(reason_of(None, [0] * 9)["kind"], "no rule")
        self.assertEqual(reason_of(File("rule", "four", FOUR.encode()), [0] * 9)["shape"], "von Neumann")
        tree = reason_of(File("rule", "life", LIFE), [1, 1, 1, 0, 0, 0, 0, 0, 0])
        self.assertEqual((tree["kind"], tree["state"], len(tree["way"])), ("tree", 1, 9))
        self.assertEqual([it["asks"] for it in tree["way"]], ["nw", "ne", "sw", "se", "n", "w", "e", "s", "c"])


class WhyTest(InBrowser):
    def ask(self, x, y, pane=0):
        """Asks about a cell as a user does, and gives the panel's words once they are known."""
        self.press("i")
        self.until("app.why.isOn")
        self.at(x, y, pane).click().perform()
        self.press("i")
        self.until(f"app.why.cell?.x === {x}n && app.why.cell.y === {y}n && !app.why.isOn")
        return self.words()

    def words(self):
        self.until("document.querySelector('#why .said, #why .mistake') && !document.querySelector('#why .hatched')"
                   " && document.querySelector('#why').innerText.includes(`(${app.why.cell.x}, ${app.why.cell.y})`)")
        return self.js("return document.querySelector('#why').innerText.replaceAll('\\u00a0', ' ')")

    def tiles(self):
        """State and words of each cell of the neighbourhood, by its place."""
        return self.js("return Object.fromEntries([...document.querySelectorAll('#why [data-place]')].map((it) => "
                       "[it.dataset.place, it.ariaLabel]))")

    def drop(self, name, text):
        self.js(DROP, name, text)
        self.until(f"[app.state.rule, app.state.start].includes({name!r})")

    def test_the_line_that_decides_its_map_and_what_variables_stand_for(self):
        self.wire()
        self.go(0, 1)
        words = self.ask(0, 1)
        self.assertIn("branch 0, generation 1: state 1: head", words)
        self.assertIn("branch 0, generation 0, Moore neighbourhood:", words)
        self.assertIn("Line 23 decides, and it becomes state 1: head.", words)
        self.assertIn("3,1,o,p,q,r,s,t,u,1", words)
        tiles = self.tiles()
        self.assertEqual(len(tiles), 9)
        self.assertEqual(tiles["ne"], "ne: state 1: head; the line has 1")
        self.assertEqual(tiles["c"], "c: state 3: wire; the line has 3")
        self.assertRegex(tiles["s"], "^s: state 3: wire; the line has [o-u]$")
        self.assertRegex(words, r"It matches turned 45° clockwise, with .*[o-u] = 3")
        self.assertIn("No line matches: it stays.", self.ask(5, 0))
        self.assertTrue(self.js("return document.querySelector('#why [role=status]').textContent"))

    def test_it_follows_steps_edits_undoing_and_another_rule(self):
        self.wire()
        self.go(0, 1)
        self.assertIn("Line 21 decides, and it becomes state 2: tail", self.ask(1, 0))
        self.press(".")
        self.until("document.querySelector('#why').innerText.includes('generation 2: state 3: wire')")
        self.assertIn("Line 22 decides, and it becomes state 3: wire", self.words())
        self.press(",")
        self.until("document.querySelector('#why').innerText.includes('generation 1: state 2: tail')")
        self.js("app.ask('paint', { branch: 0, generation: '0', cells: [['1', '0', 2]] })")
        self.until("document.querySelector('#why').innerText.includes('generation 1: state 3: wire')")
        self.assertIn("Line 22 decides", self.words())
        self.press("z")
        self.until("document.querySelector('#why').innerText.includes('generation 1: state 2: tail')")
        self.assertIn("Line 21 decides", self.words())
        text = WIRE.read_text().replace("1,a,b,c,d,e,f,g,h,2", "1,a,b,c,d,e,f,g,h,0")
        self.drop("other.rule", text)
        self.until("document.querySelector('#why').innerText.includes('Line 21 decides, and it becomes state 0')")
        self.press(",")
        self.until("document.querySelector('#why').innerText.includes('generation 0: state 1')")
        self.assertIn("It is so in the start.", self.words())
        self.click(self.find("#why .row button"))
        self.until("document.getElementById('why').hidden")
        self.assertIsNone(self.js("return app.why.cell"))

    def test_what_an_intervention_set_and_what_a_branch_begins_with(self):
        self.wire()
        self.js("app.ask('paint', { branch: 0, generation: '4', cells: [['9', '9', 3]] })")
        self.until("app.state.interventions.length === 1")
        self.go(0, 4)
        self.assertIn("Intervention 1 sets it at this generation.", self.ask(9, 9))
        self.press("b")
        self.until("app.pane.branch === 1")
        self.until("document.querySelector('#why').innerText.includes('branch 1, generation 4')")
        self.assertIn("Intervention 1 of branch 0, which branch 1 leaves here, sets it", self.words())
        self.click(self.find("#why > div:not(.row) > button"))
        self.until("app.selected?.kind === 'interventions' && app.selected.id === 1")
        words = self.ask(9, 8)
        self.assertIn("branch 0, generation 3, Moore", words)
        self.press(".")
        self.until("document.querySelector('#why').innerText.includes('branch 1, generation 5')")
        self.assertIn("branch 1, generation 4, Moore", self.words())

    def test_each_cell_in_sight_agrees_with_the_program(self):
        self.open(EXAMPLES / "brain.rule", EXAMPLES / "brain.rle")
        self.until_known(0, 0)
        self.go(0, 7)
        x, y, kinds = *self.js("const it = app.pane.area(); return [Number(it.x), Number(it.y)]"), set()
        for it in range(0, 40, 3):
            self.js(f"app.why.ask(app.pane, {{ x: {x + 20 + it}n, y: {y + 22}n }})")
            self.until("app.why.known()?.reason && app.why.panel.told === app.why.panel.key(app.why.shown()) && "
                       "!document.querySelector('#why .hatched')")
            self.assertEqual(self.browser.find_elements(By.CSS_SELECTOR, ".mistake"), [], self.words())
            kinds.add(self.js("return app.why.known().reason.kind"))
        self.assertLessEqual(kinds, {"line", "stays", "tree"})

    def test_a_difference_between_program_and_reader_is_an_error(self):
        self.wire()
        self.go(0, 1)
        self.ask(0, 1)
        self.js("""
            const { epoch } = app.state;
            for (const view of [app.pane.view(), "window 0 1 1 1"]) {
              const [, , , w, h] = view.split(" ").map(Number);
              app.frames.take({ branch: 0, generation: "1", view, epoch, text: "2 ".repeat(w * h) });
            }
            app.changed()""")
        self.until("document.querySelector('#why .mistake')")
        said = self.find("#why .mistake")
        self.assertEqual(said.get_attribute("role"), "alert")
        self.assertTrue(said.is_displayed())
        self.assertIn("The program shows state 2, and the reader of rules on this page gives state 1, by line 23",
                      said.text)

    def test_shapes_and_a_tree(self):
        self.open(EXAMPLES / "wire.rule", EXAMPLES / "wire.rle")
        self.until_known(0, 0)
        self.js(DROP, "hexes.rule", HEXAGONAL, "hexes.rle", HEXES)
        self.until("app.state.rule === 'hexes.rule'")
        self.until_known(0, 0)
        self.go(0, 1)
        words = self.ask(1, 1)  # the live cell is its south east
        self.assertIn("hexagonal neighbourhood", words)
        self.assertEqual(set(self.tiles()), {"c", "n", "e", "se", "s", "w", "nw"})
        self.assertIn("f = 1", words)
        places = self.js("return [...document.querySelectorAll('#why [data-place]')].map((it) => [it.dataset.place, "
                         "Math.round(it.getBoundingClientRect().x)])")
        x = dict(places)
        self.assertLess(x["nw"], x["c"])
        self.assertLess(x["c"], x["n"])  # rows are shifted by half of a cell
        self.assertLess(x["s"], x["c"])
        self.drop("four.rule", FOUR)
        self.until("document.querySelector('#why').innerText.includes('von Neumann neighbourhood')")
        self.until("document.querySelectorAll('#why [data-place]').length === 5")
        self.js(DROP, "life.rule", LIFE.decode(), "three.rle", "x = 3, y = 1\n3o!\n")
        self.until("app.state.rule === 'life.rule'")
        self.go(0, 1)
        words = self.ask(1, 1)
        self.assertIn("By this way through the tree it becomes state 1", words)
        self.assertEqual(len(self.browser.find_elements(By.CSS_SELECTOR, "#why ol li")), 9)
        self.assertIn("c is 0, which gives 1", words)

    def test_what_is_pending_is_hatched(self):
        self.life(800)
        self.until_known(0, 0)
        self.js("app.camera.zoom = 3; app.camera.x = app.camera.y = 9n; app.changed()")
        self.until_known(0, 0)
        self.js("app.go({ generation: 1n })")
        self.until_known(0, 1)
        self.assertIn("By this way", self.ask(9, 9))
        self.js("app.go({ generation: 200000n })")
        self.until("document.querySelector('#why .hatched')?.textContent.includes('pending: being computed')")
        self.assertNotIn("line", self.js("return document.querySelector('#why').innerText"))

    def test_the_lines_are_marked_in_the_text_of_the_rule(self):
        self.wire()
        self.go(0, 1)
        self.ask(0, 1)
        self.until("app.ruleText.shown.join() === '23'")
        self.click(self.find("#why [title='Show line 23 in the rule (R)']"))
        self.until("app.ruleText.isOpen && app.ruleText.inUse !== null")
        self.js("document.activeElement.blur()")
        self.press(",")
        self.until("app.ruleText.shown.length === 0")
        self.press(".")
        self.until("app.ruleText.shown.join() === '23'")
        self.click(self.find("#why .row button"))
        self.until("app.ruleText.shown.length === 0")

    def test_by_the_keyboard_alone(self):
        self.wire()
        self.go(0, 1)
        self.js("app.pane.canvas.focus(); app.pane.cursor = { x: 0n, y: 0n }")
        self.press(Keys.ARROW_DOWN, "i")
        self.until("app.why.cell?.y === 1n")
        self.assertIn("Line 23 decides", self.words())
        self.js("document.activeElement.blur()")
        self.press("i")
        self.until("document.getElementById('ask-why').ariaPressed === 'true'")
        self.js("app.pane.canvas.focus()")
        self.press(Keys.ARROW_RIGHT, Keys.ARROW_UP, Keys.ENTER)
        self.until("app.why.cell.x === 1n && app.why.cell.y === 0n")
        self.assertIn("Line 21 decides", self.words())
        self.assertEqual(self.js("return app.state.undo"), 0)
        self.press(Keys.ESCAPE)
        self.until("document.getElementById('ask-why').ariaPressed === 'false'")
        self.at(3, 3).click_and_hold().move_by_offset(40, 0).release().perform()
        self.assertEqual(self.js("return `${app.why.cell.x} ${app.why.cell.y}`"), "1 0")

    def test_a_drag_moves_the_picture_and_asks_nothing(self):
        self.wire()
        self.press("i")
        before = self.js("return `${app.camera.x}`")
        self.at(3, 3).click_and_hold().move_by_offset(40, 0).move_by_offset(40, 0).release().perform()
        self.until(f"`${{app.camera.x}}` !== '{before}'")
        self.assertIsNone(self.js("return app.why.cell"))
        time.sleep(0.2)
        self.assertEqual(ActionChains and self.js("return app.state.undo"), 0)


if __name__ == "__main__":
    unittest.main()
