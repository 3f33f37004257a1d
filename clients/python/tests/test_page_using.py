"""The walk of ten minutes of docs/USING.md, step by step as it is written there, and what else its pictures show. It
runs with the other tests, or alone by

    python3 -m unittest discover -s clients/python/tests -p test_page_using.py

With PICTURES=FOLDER in the environment it puts the pictures there.
"""
import unittest

from page_browser import DROP, WIRE, ActionChains, InBrowser, Keys, tests_in_browser
from places import EXAMPLES
from test_page_rule import GOLLY, TO_LINE

END = str(2 ** 60)


def load_tests(loader, tests, pattern):
    return tests_in_browser(tests, __file__)


class UsingTest(InBrowser):
    def setUp(self):
        super().setUp()
        self.in_window(1180, 760)

    def lane(self, branch, generation):
        """The pointer over a lane, at a generation."""
        x = self.js("return app.timeline.scale.at(arguments[0])", generation)
        return self.over(f"[data-lane='{branch}'] .hit", round(x))

    def control(self, key):
        ActionChains(self.browser).key_down(Keys.CONTROL).send_keys(key).key_up(Keys.CONTROL).perform()

    def write(self, name, words):
        """Writes into a field of what is selected."""
        field = self.find(f"#details [name={name}]")
        field.clear()
        field.send_keys(words)

    def shown_by(self, selector, words):
        self.until(f"document.querySelector({selector!r})?.textContent.includes({words!r})")

    def test_the_walk_of_ten_minutes(self):
        self.wire()
        self.go_along_the_lane()
        self.read_the_counts()
        self.add_a_bookmark()
        self.branch_off()
        self.look_at_two_places()
        self.draw_curves()
        self.copy_the_loop()
        self.keep_a_stamp()
        self.run_until_it_comes_again()
        self.write_the_rule()
        self.count_the_lines()
        self.save()

    def go_along_the_lane(self):
        self.lane(0, 20).click().perform()
        self.until_known(0, 20)
        self.press(".", "]", ".")
        self.until_known(0, 23)
        self.press(",", "[", ",")
        self.until_known(0, 20)
        self.press(" ")
        self.until("app.pane.generation > 22n")
        self.press(" ")
        self.go(0, 20)

    def read_the_counts(self):
        self.shown_by("#census", "population 35")
        self.at(1, 0).perform()
        self.until_text(".spot", "(1, 0): 1")
        self.press(".")
        self.until_text(".spot", "(1, 0): 2")

    def add_a_bookmark(self):
        self.go(0, 60)
        self.press("m")
        self.until("app.state.bookmarks.length === 1 && app.state.bookmarks[0].isCurrent")
        self.until_text("#details pre", "1 2\n2 2\n3 31\n")
        self.drag("[data-key='bookmarks 1']", -60)
        self.until("app.state.bookmarks[0].generation !== '60'")
        self.press("z")
        self.until("app.state.bookmarks[0].generation === '60' && app.state.bookmarks[0].isCurrent")

    def branch_off(self):
        self.go(0, 24)
        self.press("b")
        self.until("app.pane.branch === 1")
        self.until_known(1, 24)
        self.press("0")
        self.at(10, 2).click().perform()
        self.until("app.state.interventions.length === 1")
        self.until_known(1, 24)
        self.assertEqual(self.pixel(10, 2), WIRE[0])
        self.drag("[data-key='interventions 1']", 40)
        self.until("app.state.interventions[0].first !== '24'")
        self.js("app.select('interventions', 1)")
        self.until("document.querySelectorAll('#details input').length === 3")
        self.write("again-every", "10")
        self.write("generation", "26")
        self.click(self.button("Change"))
        self.until(f"app.state.interventions[0].last === '{END}' && app.state.interventions[0].first === '26'")
        self.go(1, 46)
        self.press("2")
        self.at(10, 2).click().perform()
        self.shown_by("#status", "Changed intervention 1, which acts again and again")
        self.press("z", "h")
        self.go(1, 46)
        self.assertEqual(self.pixel(10, 2), WIRE[0])

    def look_at_two_places(self):
        self.go(1, 60)
        self.press("w")
        self.js("app.choosePane(0); app.go({ branch: 0 })")
        self.until_known(0, 60, 0)
        self.until_known(1, 60, 1)
        self.press("f")
        self.until("!app.wantsFit")
        self.assertEqual([self.pixel(10, 2, it) for it in (0, 1)], [WIRE[3], WIRE[0]])
        self.press("d")
        self.shown_by(".differ", "cells differ in sight")
        self.press("d")
        self.js("app.choosePane(1)")
        self.shown_by("#census", "box 24 by 5 at (0, 0)")
        self.picture("page_branches")
        self.js("app.choosePane(0)")
        self.press("w")
        self.until("app.panes.length === 1")

    def draw_curves(self):
        self.press("c")
        self.until("document.querySelectorAll('.curve-line').length === 3")
        self.press("l", "l", "c")
        self.until("document.getElementById('curve').hidden")

    def copy_the_loop(self):
        kinds = ["clipboardReadWrite", "clipboardSanitizedWrite"]
        self.browser.execute_cdp_cmd("Browser.grantPermissions", {"permissions": kinds})
        self.go(0, 0)
        self.press("f")
        self.until("!app.wantsFit")
        self.until_known(0, 0)
        x, y = self.js("const one = app.pane.pixelOf(0n, 0n), other = app.pane.pixelOf(8n, 4n); "
                       "return [Math.round(other.x - one.x), Math.round(other.y - one.y)]")
        self.at(0, 0).key_down(Keys.SHIFT).click_and_hold().move_by_offset(x, y).release().key_up(Keys.SHIFT).perform()
        self.shown_by("#selection h2", "Selection: 9 by 5 at (0, 0)")
        self.control("c")
        self.shown_by("#status", "Copied 9 by 5")
        self.control("v")
        self.until("app.ghost.pattern")
        self.at(15, -6).perform()
        self.press("}")
        self.shown_by("#selection h2", "To be placed: 5 by 9")
        self.shown_by("#census", "population 35")
        self.picture("page_patterns")
        self.press(Keys.ENTER)
        self.shown_by("#census", "population 55")
        self.press("z")
        self.shown_by("#census", "population 35")

    def keep_a_stamp(self):
        self.press("t", "v")
        self.until("document.querySelectorAll('.stamps li').length === 1")
        self.assertTrue(list((self.folder / "state/desk/stamps").iterdir()))
        self.press(Keys.ESCAPE, "3", "e")
        self.until("app.tools.tool === 'line' && app.palette.ink === 3")
        self.at(1, 0).key_down(Keys.ALT).click().key_up(Keys.ALT).perform()
        self.until("app.palette.ink === 1")
        self.press("h")

    def run_until_it_comes_again(self):
        self.press("u")
        self.js("const it = document.querySelector('#until select'); it.value = 'again'; "
                "it.dispatchEvent(new Event('change'))")
        self.click(self.find("#until button"))
        self.shown_by("#until output", "The pattern of generation 8 comes again after 20 generations.")
        self.js("document.getElementById('until').open = document.getElementById('shelf').open = false")

    def write_the_rule(self):
        self.go(0, 15)
        self.press("r")
        self.until("app.ruleText.draft !== null")
        for state, is_taken in (("3", True), ("9", False)):
            self.js(TO_LINE, 21)
            ActionChains(self.browser).send_keys(Keys.BACKSPACE, state).perform()
            if is_taken:
                self.until("app.ruleText.inUse?.includes('1,a,b,c,d,e,f,g,h,3') && !app.ruleText.isChanged")
                self.until_known(0, 15)
            else:
                self.shown_by("#rule .fault", "StateTooHigh")
                self.shown_by("#rule .fault", "raise n_states")
        self.picture("page_rule")
        self.click(self.find("#rule [data-do=back]"))
        self.until("!app.ruleText.isChanged && app.ruleText.draft.includes('1,a,b,c,d,e,f,g,h,3')")
        self.js("document.activeElement.blur()")
        self.press("z")
        self.until("app.ruleText.inUse?.includes('1,a,b,c,d,e,f,g,h,2')")

    def count_the_lines(self):
        self.press("j")
        self.until("document.activeElement.name === 'fires-first'")
        self.click(self.find("#fires .row button"))
        self.shown_by("#fires output", "Counted the steps from generation 0 to 15 in branch 0.")
        self.js("document.activeElement.blur()")
        self.press("r")

    def save(self):
        undone = self.js("return app.state.undo")
        self.press("z")
        self.until(f"app.state.undo === {undone - 1}")
        self.press("y")
        self.until(f"app.state.undo === {undone}")
        script = self.script()
        self.assertIn("on 1 every 10 26", script)
        self.js("app.ask('new')")
        self.until("app.state.bookmarks.length === 0")
        self.js(DROP, "experiment.script", script)
        self.until("app.state.bookmarks[0]?.isCurrent && app.state.interventions[0]?.distance === '10'")
        self.assertEqual(self.script(), script)

    def test_what_is_pending_is_shown_as_pending(self):
        self.life(800)
        self.until_known(0, 0)
        for generation in (16, 64, 180, 500, 100_000, 200_000):
            self.js(f"app.edits.mark({{ branch: 0, generation: {generation}n }})")
        self.until("app.state.bookmarks.length === 6")
        self.js("app.go({ generation: 200000n }); app.select('bookmarks', 6)")
        self.until("app.state.bookmarks.map((it) => Number(it.isCurrent)).join('') === '111100'", 120)
        self.shown_by(".pane .due", "pending")
        self.shown_by("#details pre", "pending: being computed")
        self.assertEqual(self.js("return document.querySelectorAll('.bookmark.pending').length"), 2)
        self.assertEqual(self.js("return app.pane.node.dataset.known"), "")
        self.picture("page_pending", is_all_known=False)

    def test_counts_as_curves(self):
        self.open(EXAMPLES / "brain.rule", EXAMPLES / "brain.rle")
        self.until_known(0, 0)
        self.press("c")
        self.go(0, 100)
        self.until("document.querySelectorAll('.curve-line').length === 2")
        self.until("!document.querySelector('#curve span').textContent.includes('pending')")
        self.press("f")
        self.until("!app.wantsFit")
        self.until_known(0, 100)
        self.picture("page_curve")

    @unittest.skipUnless(GOLLY.is_dir(), "Golly isn't installed")
    def test_how_often_each_line_decided(self):
        self.open(GOLLY / "Rules/Evoloop.rule", GOLLY / "Patterns/Loops/Evoloop.rle")
        self.go(0, 60)
        self.press("r")
        self.until("app.ruleText.draft !== null")
        self.js("document.activeElement.blur()")
        self.press("j")
        self.until("document.activeElement.name === 'fires-first'")
        self.click(self.find("#fires .row button"))
        self.until("document.querySelector('#fires output').textContent.startsWith('Counted')", 60)
        self.assertEqual(self.find("#fires .dead").text, "Can never fire, for certain: 216 219 252 254 268")
        self.click(self.browser.find_elements("css selector", "#fires .dead button")[2])
        self.until("app.ruleText.shown.join() === '252'")
        self.press("f")
        self.until("!app.wantsFit")
        self.until_known(0, 60)
        self.picture("page_lines")


if __name__ == "__main__":
    unittest.main()
