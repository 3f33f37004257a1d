"""The walk of docs/WALK.md, step by step as it is written there. It runs with the other tests, or alone by

    python3 -m unittest discover -s clients/python/tests -p test_page_walk.py

With PICTURES=FOLDER in the environment it puts the walk's pictures there.
"""
import re
import unittest

from page_browser import ActionChains, InBrowser, Keys, tests_in_browser
from places import ROOT

WALK = ROOT / "docs/WALK.md"
RULE = """\
@RULE Prairie
@TABLE
n_states:4
neighborhood:vonNeumann
symmetries:none
var a={0,1,2,3}
var b=a
var c=a
var d=a
# grass burns beside fire: n, e, s, w
0,1,a,b,c,1
0,a,1,b,c,1
0,a,b,1,c,1
0,a,b,c,2,1
# fire becomes embers, then ash, then grass
1,a,b,c,d,2
2,a,b,c,d,3
3,a,b,c,d,0
@COLORS
0  72 104  40  grass
1 255 200   0  fire
2 208  48  16  embers
3  96  96 104  ash
"""
# The cursor at the end of a line of the rule's text.
TO_LINE = """
const { editor } = app.ruleText, line = arguments[0];
editor.focus();
if (editor.editor) editor.editor.setCursor(line - 1, 1e6);
else {
  const at = editor.text.split("\\n").slice(0, line).join("\\n").length;
  editor.field.setSelectionRange(at, at);
}
"""


def load_tests(loader, tests, pattern):
    return tests_in_browser(tests, __file__)


class WalkTest(InBrowser):
    def states(self, cells, pane=0):
        return self.js("return arguments[0].map(([x, y]) => app.frames.stateAt(app.panes[arguments[1]].place, "
                       "{ x: BigInt(x), y: BigInt(y) }))", cells, pane)

    def until_states(self, cells, wanted, pane=0):
        self.until(f"JSON.stringify({cells}.map(([x, y]) => app.frames.stateAt(app.panes[{pane}].place, "
                   f"{{ x: BigInt(x), y: BigInt(y) }}))) === JSON.stringify({wanted})")

    def until_why(self, words):
        self.until(f"document.querySelector('#why').innerText.includes({words!r}) && "
                   "!document.querySelector('#why .hatched')")
        self.assertEqual(self.js("return document.querySelectorAll('.mistake').length"), 0)

    def until_in_use(self, part):
        self.until(f"app.ruleText.inUse?.includes({part!r}) && !app.ruleText.isChanged")

    def at_line(self, line, *keys):
        """Types at the end of a line of the rule."""
        self.js(TO_LINE, line)
        ActionChains(self.browser).send_keys(*keys).perform()

    def leave_text(self):
        self.js("document.activeElement.blur()")

    def count(self, last):
        self.press("j")
        self.until("document.activeElement.name === 'fires-first'")
        self.js("document.querySelector('[name=fires-last]').value = arguments[0]", last)
        self.click(self.find("#fires .row button"))
        self.until("document.querySelector('#fires output').textContent.startsWith('Counted the steps')")
        self.leave_text()

    def test_the_walk(self):
        self.assertIn(f"```\n{RULE}```\n", WALK.read_text(encoding="utf-8"))
        self.open()
        self.in_window(1180, 720)
        self.write_the_rule()
        self.light_a_fire()
        self.find_the_mistake()
        self.use_a_symmetry()
        self.drop_dead_lines()
        self.draw_a_front()
        self.save()

    def write_the_rule(self):
        self.press("r")
        self.until("app.ruleText.isOpen && app.ruleText.draft === ''")
        self.js("app.ruleText.edit(arguments[0])", RULE)
        self.until("app.state.ruleName === 'Prairie' && app.state.names[2] === 'embers'")
        self.until_in_use("0,a,b,c,2,1")
        self.leave_text()

    def light_a_fire(self):
        self.press("+", "1")
        self.at(0, 0).click().perform()
        self.until("app.state.undo === 2")
        self.until_states([[0, 0]], [1])
        self.press(*"......")
        self.until_known(0, 6)
        north, east, south, west = self.states([[0, -6], [6, 0], [0, 6], [-6, 0]])
        self.assertEqual((north, south, west), (1, 1, 1))
        self.assertEqual(east, 0)  # it comes there too late
        self.picture("walk_lopsided")

    def find_the_mistake(self):
        self.press(*",,,,,", "i")
        self.until_known(0, 1)
        self.at(1, 0).click().perform()
        self.until_why("No line matches: it stays.")
        self.assertIn("w: state 1: fire", self.js("return document.querySelector('#why [data-place=w]').ariaLabel"))
        self.press(".")
        self.until_why("Line 14 decides, and it becomes state 1: fire.")
        self.assertIn("w: state 2: embers; the line has 2",
                      self.js("return document.querySelector('#why [data-place=w]').ariaLabel"))
        self.until("app.ruleText.shown.join() === '14'")
        self.picture("walk_why")
        self.press(",")
        self.at_line(14, Keys.ARROW_LEFT, Keys.ARROW_LEFT, Keys.BACKSPACE, "1")
        self.until_in_use("0,a,b,c,1,1")
        self.until_why("Line 14 decides, and it becomes state 1: fire.")
        self.leave_text()
        self.press(Keys.ESCAPE, *".....")
        self.until_known(0, 6)
        self.until_states([[0, -6], [6, 0], [0, 6], [-6, 0]], [1, 1, 1, 1])
        self.click(self.find("#why .row button"))

    def use_a_symmetry(self):
        self.press("q")
        self.until("document.activeElement.matches('#second textarea')")
        self.click(self.find("#second button"))
        self.until("app.state.second?.ruleName === 'Prairie' && app.panes.length === 2")
        self.at_line(5, *[Keys.BACKSPACE] * 4, "rotate4")
        self.until_in_use("symmetries:rotate4")
        self.leave_text()
        self.press("d")
        self.until_text_begins(".differ", "0 cells differ in sight")
        self.press(*"....")
        self.until("app.panes[1].node.dataset.differ && app.pane.generation === 10n")
        self.until_text_begins(".differ", "0 cells differ in sight")

    def until_text_begins(self, selector, words):
        self.until(f"document.querySelector({selector!r})?.textContent.startsWith({words!r})")

    def drop_dead_lines(self):
        self.count("10")
        self.assertEqual(self.find("#fires .dead").text, "Can never fire, for certain: 12 13 14")
        self.click(self.find("#fires .dead button"))
        self.until("app.ruleText.shown.join() === '12'")
        self.picture("walk_dead_lines")
        for line in (14, 13, 12):
            self.at_line(line, *[Keys.BACKSPACE] * 12)
        self.until("!/^0,a,/m.test(app.ruleText.inUse) && !app.ruleText.isChanged")
        self.leave_text()
        self.until("app.panes[1].node.dataset.differ")
        self.until_text_begins(".differ", "0 cells differ in sight")
        self.count("10")
        self.assertEqual(self.js("return document.querySelectorAll('#fires :is(.dead, .idle)').length"), 0)

    def draw_a_front(self):
        self.press("w")
        self.until("app.panes.length === 1")
        self.js("app.go({ generation: 0n })")
        self.until_known(0, 0)
        self.press("e")
        self.until("app.tools.tool === 'line'")
        for ink, y in ((1, -3), (2, -2), (3, -1)):
            self.press(str(ink))
            left, right = self.at(-9, y), self.js(
                "const it = app.pane.pixelOf(-9n, 0n), to = app.pane.pixelOf(9n, 0n); return Math.round(to.x - it.x)")
            left.click_and_hold().move_by_offset(right, 0).release().perform()
            self.until_states([[-9, y], [9, y]], [ink, ink])
        self.js("app.go({ generation: 24n })")
        self.until_known(0, 24)
        self.press("f")
        self.until("!app.wantsFit")
        self.until_known(0, 24)
        counts = "app.census.counts(app.pane.place)"
        self.until(counts)
        burning = self.js(f"return {counts}.get(1)")
        self.assertGreater(burning, 100)
        self.picture("walk_spirals")
        self.js("app.go({ generation: 120n })")
        self.until_known(0, 120)
        self.until(counts)
        self.assertGreater(self.js(f"return {counts}.get(1)"), burning)  # and it never goes out

    def save(self):
        script = self.script()
        self.assertEqual(len(re.findall("^0,1,a,b,c,1$", script, re.M)), 1)
        self.assertIn("#second-rule ", script)
        self.assertIn("symmetries:rotate4", script)


if __name__ == "__main__":
    unittest.main()
