"""Tests that the page's texts stand out from what is behind them, by the measure of WCAG 2 for level AA."""
import unittest

from page_browser import InBrowser, tests_in_browser
from places import EXAMPLES

# Each text that is seen with less contrast than 4.5, or 3 where it is large: what it says, and its contrast. Controls
# that can't be used have no limit, nor have texts over a picture's own colors. What is hatched is white over browns,
# with 6 at least: a hatching is no color that could be read here.
FAINT = r"""
const channel = (c) => (c /= 255) <= 0.04045 ? c / 12.92 : ((c + 0.055) / 1.055) ** 2.4;
const light = ([r, g, b]) => 0.2126 * channel(r) + 0.7152 * channel(g) + 0.0722 * channel(b);
const parts = (color) => [...color.match(/[\d.]+/g).map(Number), 1].slice(0, 4);
const over = (top, below) => [0, 1, 2].map((it) => top[it] * top[3] + below[it] * (1 - top[3]));
const behind = (it) => {
  const layers = [];
  for (let at = it; at; at = at.parentElement) layers.push(parts(getComputedStyle(at).backgroundColor));
  return layers.reverse().reduce((below, top) => over(top, below), [255, 255, 255]);
};
const faint = [];
const walker = document.createTreeWalker(document.body, NodeFilter.SHOW_TEXT);
while (walker.nextNode()) {
  const text = walker.currentNode.textContent.trim(), it = walker.currentNode.parentElement;
  if (!text || !it.checkVisibility({ opacityProperty: true, visibilityProperty: true })) continue;
  if (it.closest(":disabled, svg, canvas, option, script, style, .swatch, .tile, .hatched")) continue;
  const style = getComputedStyle(it), below = behind(it), color = over(parts(style.color), below);
  const [more, less] = [light(color), light(below)].sort((a, b) => b - a), contrast = (more + 0.05) / (less + 0.05);
  const size = parseFloat(style.fontSize), isLarge = size >= 24 || size >= 18.66 && style.fontWeight >= 700;
  if (contrast < (isLarge ? 3 : 4.5)) faint.push(`${text.slice(0, 40)}: ${contrast.toFixed(2)} in ${it.tagName}`);
}
return faint;
"""


class ContrastTest(InBrowser):
    def test_texts_in_light_and_dark(self):
        for scheme in ("light", "dark"):
            with self.subTest(scheme):
                self.browser.execute_cdp_cmd("Emulation.setEmulatedMedia", {
                    "features": [{"name": "prefers-color-scheme", "value": scheme}]})
                self.open(EXAMPLES / "wire.rule", EXAMPLES / "wire.rle")
                self.until_known(0, 0)
                self.go(0, 5)
                self.js("app.ruleText.show(); app.why.ask(app.pane, { x: 0n, y: 1n });"
                        "for (const it of document.querySelectorAll('details')) it.open = true")
                self.until("app.why.known()?.reason && app.ruleText.inUse !== null")
                self.assertEqual(self.js(FAINT), [])
                self.js("app.ruleText.edit(app.ruleText.inUse.replace('n_states:4', 'n_states:2'))")
                self.until("document.querySelector('#rule').textContent.includes('Refused')")
                self.assertEqual(self.js(FAINT), [])
                self.press("?")
                self.assertEqual(self.js(FAINT), [])


def load_tests(loader, tests, pattern):
    return tests_in_browser(tests, __file__)


if __name__ == "__main__":
    unittest.main()
