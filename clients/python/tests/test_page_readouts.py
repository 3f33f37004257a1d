"""What the page says belongs to the document and the place that are shown, also where the pointer doesn't move."""
import unittest

from page_browser import Keys, InBrowser, tests_in_browser

PAINT = "app.ask('paint', { branch: 0, generation: `${app.pane.generation}`, cells: [arguments[0]] })"


def load_tests(loader, tests, pattern):
    return tests_in_browser(tests, __file__)


class ReadoutTest(InBrowser):
    def paint(self, x, y, state):
        self.js(PAINT, [str(x), str(y), state])

    def test_the_cell_under_the_pointer_after_edits_steps_and_moves_of_the_picture(self):
        self.wire()
        self.at(10, 2).perform()
        self.until_text(".spot", "(10, 2): 3")
        self.paint(10, 2, 0)
        self.until_text(".spot", "(10, 2): 0")
        self.press("z")
        self.until_text(".spot", "(10, 2): 3")
        self.at(1, 0).perform()
        self.until_text(".spot", "(1, 0): 1")
        self.press(".")
        self.until_text(".spot", "(1, 0): 2")
        self.js("app.camera.x += 1n; app.changed()")
        self.until_text(".spot", "(2, 0): 3")
        self.js("app.camera.zoom = 0; app.camera.x = app.camera.y = 0n; app.changed()")
        self.at(0, 1).perform()
        self.until_text(".spot", "(0, 1): 1")  # of the macrocell text
        self.js("document.querySelector('.pane canvas').dispatchEvent(new PointerEvent('pointerleave'))")
        self.until_text(".spot", "")

    def test_the_cell_under_the_pointer_where_the_layout_lies_between_pixels(self):
        self.wire()
        self.js("app.camera.zoom = 0; app.camera.x = app.camera.y = 0n; app.changed()")
        self.until_known(0, 0)
        for padding in ("8px", "8.3px", "8.6px", "8.9px"):
            self.js("document.body.style.paddingTop = arguments[0]", padding)
            for y, state in ((0, 0), (1, 3), (3, 3), (4, 0)):
                self.at(0, y).perform()
                self.until_text(".spot", f"(0, {y}): {state}")

    def test_the_cell_under_the_pointer_is_pending_where_it_is_not_known(self):
        self.life(800)
        self.until_known(0, 0)
        self.js("app.camera.zoom = 3; app.camera.x = app.camera.y = 9n; app.changed()")
        self.until_known(0, 0)
        self.at(9, 9).perform()
        self.until("/: [01]$/.test(document.querySelector('.spot').textContent)")
        self.js("app.go({ generation: 200000n })")
        self.until_text(".spot", "(9, 9): pending")
        self.assertTrue(self.js("return document.querySelector('.spot').classList.contains('pending')"))

    def test_the_cell_of_the_keyboard_in_the_status(self):
        self.wire()
        self.js("app.pane.canvas.focus(); app.pane.cursor = { x: 9n, y: 2n }")
        self.press(Keys.ARROW_RIGHT)
        self.until("document.getElementById('status').textContent.includes('cell (10, 2): 3')")
        self.paint(10, 2, 0)
        self.until("document.getElementById('status').textContent.includes('cell (10, 2): 0')")

    def test_what_is_said_of_bookmarks_curves_and_differences(self):
        self.wire()
        self.go(0, 24)
        self.js("document.getElementById('view').value = 'window'")
        self.press("m", "c", "w")
        self.until("/: 24$|wire|live cells/.test(document.querySelector('#details pre').textContent)")
        before = self.js("return document.querySelector('#details pre').textContent")
        self.assertIn("live cells in the window", before)
        self.js("app.choosePane(0); app.go({ generation: 0n })")
        self.press("d")
        self.until("document.querySelector('.differ').textContent.includes('cells differ in sight')")
        differs = self.js("return document.querySelector('.differ').textContent")
        self.until("document.querySelector('#curve span').textContent && "
                   "!document.querySelector('#curve span').textContent.includes('pending')")
        ends = "return [...document.querySelectorAll('#curve text')].map((it) => it.textContent).join()"
        curves = self.js(ends)
        self.js("app.ask('paint', { branch: 0, generation: '0', cells: [[5, -7, 3], [6, -7, 3]] })")
        count = int(before.split()[0]) + 2
        self.until_text("#details pre", f"{count} live cells in the window")
        self.assertNotEqual(self.js(ends), curves)
        self.js("app.ask('paint', { branch: 0, generation: '24', cells: [[5, -7, 0]] })")
        self.until_text("#details pre", f"{count - 1} live cells in the window")
        self.until(f"document.querySelector('.differ').textContent !== {differs!r} && "
                   "document.querySelector('.differ').textContent.includes('cells differ in sight')")

    def test_the_generation_while_its_field_has_the_focus(self):
        self.wire()
        self.press("g")
        self.assertEqual(self.js("return document.activeElement.id"), "generation")
        self.js("app.go({ generation: 7n })")
        self.until("document.getElementById('generation').value === '7'")
        self.press("1", "2")
        self.js("app.go({ generation: 8n })")  # what is being typed stays
        self.assertEqual(self.js("return document.getElementById('generation').value"), "12")


if __name__ == "__main__":
    unittest.main()
