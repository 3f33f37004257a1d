"""Tests of fields, of interventions that act again and again, of the speed, of states' names, of small screens."""
import time
import unittest

from page_browser import By, InBrowser, Keys, tests_in_browser

try:
    from desk.page.state_names import state_names
except ImportError:
    state_names = None

END = str(2 ** 60)


def load_tests(loader, tests, pattern):
    return tests_in_browser(tests, __file__)


class NamesTest(unittest.TestCase):
    def test_names_stand_behind_the_colors_of_states(self):
        cases = [
            (b"@RULE a\n@COLORS\n0 1 2 3\n1  80 160 255  head\r\n2 0 0 0 # a tail\n3 0 0 0 255 0 0\n4 0 0 0 9\n"
             b"# 5 0 0 0 x\n255 0 0 0 \xe2\x86\x92 last\n256 0 0 0 none\n@ICONS\n6 0 0 0 icon\n",
             {1: "head", 2: "a tail", 255: "\u2192 last"}),
            (b"@RULE a\n@TABLE\nn_states:4\n1 0 0 0 x\n", {}),
            (b"", {}),
        ]
        for text, wanted in cases:
            self.assertEqual(state_names(text), wanted)


class MendsTest(InBrowser):
    def fields(self):
        return self.browser.find_elements(By.CSS_SELECTOR, "#details input")

    def write(self, field, words):
        field.clear()
        field.send_keys(words)

    def intervention(self):
        return self.js("const [it] = app.state.interventions; return [it.first, it.distance, it.last, it.cells]")

    def repeating(self):
        """A page with an intervention at generation 4, which is selected."""
        self.wire()
        self.js("app.ask('paint', { branch: 0, generation: '4', cells: [['5', '-3', 3], ['6', '-3', 3]] })")
        self.until("app.state.interventions.length === 1")
        self.js("app.select('interventions', 1)")
        self.until("document.querySelectorAll('#details input').length === 3")

    def test_bad_numbers_are_marked_in_their_fields(self):
        self.wire()
        field = self.find("#generation")
        for words in ("x", "-3", "1.5", "2^", ""):
            self.write(field, words + Keys.ENTER)
            self.until("document.getElementById('generation').ariaInvalid === 'true'")
            note = self.find("#" + field.get_attribute("aria-describedby"))
            self.assertIn("A generation is a number such as 1000, 1e6 or 2^60.", note.text)
            self.assertEqual(self.js("return `${app.pane.generation}`"), "0")
        self.write(field, "1e2" + Keys.ENTER)
        self.until("app.pane.generation === 100n && !document.querySelector('[aria-invalid], .wrong')")
        self.write(self.find("#frames"), "999")
        self.click(self.find("#film"))
        self.until("document.getElementById('frames').ariaInvalid === 'true'")
        self.assertIn("1 to 256 frames", self.find(".wrong").text)

    def test_bad_numbers_of_an_intervention_are_marked_and_change_nothing(self):
        self.repeating()
        first, distance, last = self.fields()
        self.write(distance, "often")
        self.write(last, "9..")
        self.click(self.button("Change"))
        self.until("document.querySelectorAll('#details [aria-invalid=true]').length === 2")
        self.assertEqual([it.get_attribute("aria-invalid") for it in (first, distance, last)], [None, "true", "true"])
        self.assertEqual(self.intervention(), ["4", "0", "4", 2])

    def test_again_every_without_up_to_means_to_the_end(self):
        self.repeating()
        _, distance, last = self.fields()
        self.write(distance, "10")
        self.assertEqual(last.get_attribute("placeholder"), "the end")
        self.click(self.button("Change"))
        self.until(f"app.state.interventions[0].last === '{END}'")
        self.assertEqual(self.intervention(), ["4", "10", END, 2])
        self.until("[...document.querySelectorAll('#details input')].map((it) => it.value).join() === '4,10,'")
        self.assertLess(self.js("return app.far"), 2 ** 20)
        for generation in (4, 14, 1004):
            self.go(0, generation)
            self.assertEqual(self.js("return app.frames.stateAt(app.pane.place, { x: 5n, y: -3n })"), 3)

    def test_painting_a_cell_of_a_repeating_intervention_changes_it(self):
        self.repeating()
        self.js("app.ask('change', { id: 1, first: '4', distance: '10', last: '100' })")
        self.until("app.state.interventions[0].distance === '10'")
        state = ("return [14, 24].map((it) => "
                 "app.frames.stateAt({ branch: 0, generation: BigInt(it) }, { x: 5n, y: -3n }))")
        self.go(0, 24)
        self.go(0, 14)
        self.js("app.palette.choose(2)")
        self.at(5, -3).click().perform()
        self.until("app.state.undo === 3")
        self.assertEqual(self.intervention(), ["4", "10", "100", 2])
        self.assertEqual(self.js("return app.state.interventions.length"), 1)
        self.assertIn("Changed intervention 1, which acts again and again", self.find("#status").text)
        self.go(0, 24)
        self.go(0, 14)
        self.assertEqual(self.js(state), [2, 2])
        self.at(7, -3).click().perform()  # a cell that it hasn't: at this generation alone
        self.until("app.state.interventions.length === 2")
        self.assertEqual(self.js("const it = app.state.interventions[1]; return [it.first, it.distance, it.cells]"),
                         ["14", "0", 1])

    def test_painting_the_start_says_nothing_of_interventions(self):
        self.wire()
        self.js("app.palette.choose(1)")
        self.at(3, 3).click().perform()
        self.until("app.state.undo === 1 && !app.pane.unsure.length")
        self.assertNotIn("Changed intervention", self.find("#status").text)

    def test_the_speed_of_playing(self):
        self.wire()
        speeds = self.js("return [...document.getElementById('speed').options].map((it) => Number(it.value))")
        self.assertEqual((min(speeds), max(speeds)), (1, 60))
        gone = {}
        for speed in (2, 60):
            self.js(f"app.go({{ generation: 0n }}); app.player.setSpeed({speed})")
            self.until_known(0, 0)
            self.press(" ")
            begun = time.monotonic()
            time.sleep(2.1)
            steps = self.js("app.player.play(false); return Number(app.pane.generation)")
            gone[speed] = steps / (time.monotonic() - begun)
        self.assertLess(gone[2], 3)
        self.assertGreater(gone[60], 2 * gone[2])  # a busy machine hasn't each picture in time
        self.assertLess(gone[60], 66)
        self.js("app.player.setSpeed(10)")
        self.press(">")
        self.until("document.getElementById('speed').value === '20'")
        self.press("<", "<")
        self.until("document.getElementById('speed').value === '5'")

    def test_the_palette_has_the_names_of_states(self):
        self.wire()
        names = self.js("return [...document.querySelectorAll('#palette button')].map((it) => it.ariaLabel)")
        self.assertEqual(names, ["move the picture", "state 0", "state 1: head", "state 2: tail", "state 3: wire"])
        self.press("3")
        self.until("document.getElementById('status').textContent.includes('state 3: wire')")
        self.assertIn("state 3: wire", self.js("return document.getElementById('ink').textContent"))

    def test_on_a_small_screen_the_tools_are_below_the_picture(self):
        self.wire()
        for width, is_below in ((420, True), (1280, False)):
            self.in_window(width, 900)
            pane, tools = self.js("return ['#panes', 'aside'].map((it) => { const box = "
                                  "document.querySelector(it).getBoundingClientRect().toJSON(); return box; })")
            self.assertEqual(tools["top"] >= pane["bottom"], is_below, (width, pane, tools))
            self.assertGreaterEqual(pane["width"], 380)
            self.assertGreaterEqual(pane["height"], 240)
            self.assertLessEqual(self.js("return document.documentElement.scrollWidth"), width)
            cut = self.js("""return [...document.querySelectorAll("button, select, input, .button")].filter((it) => {
                const box = it.getBoundingClientRect();
                return box.width && (box.right > innerWidth || box.left < 0); }).map((it) => it.outerHTML)""")
            self.assertEqual(cut, [])


if __name__ == "__main__":
    unittest.main()
