// Copying, cutting and pasting as RLE text, which Golly takes and gives too.

import { readRle, rleOf } from "./rle.js";

export class Clipboard {
  constructor(app) {
    this.app = app;
    for (const kind of ["copy", "cut", "paste"]) addEventListener(kind, (event) => this.take(kind, event));
  }

  // The browser's own event, unless it is about text that is written or selected.
  take(kind, event) {
    const isText = event.target.closest?.("input, textarea, [contenteditable]") || !getSelection().isCollapsed;
    if (isText || document.querySelector("dialog[open]")) return;
    event.preventDefault();
    if (kind === "paste") this.pasted(event.clipboardData.getData("text/plain"));
    else this.app.try(() => this.copy(kind === "cut", event.clipboardData));
  }

  // Where the cells aren't known yet, the text is written when they are, which the browser may not let be so late.
  async copy(isCut = false, data = null) {
    const { app } = this, { selection } = app, known = data && selection.known();
    if (known) data.setData("text/plain", this.text(known));
    else await navigator.clipboard.writeText(this.text(await selection.pattern()));
    const { w, h } = selection.box;
    if (isCut) await selection.clearInside();
    app.say(`${isCut ? "Cut" : "Copied"} ${w} by ${h} cells.`);
  }

  text(pattern) { return rleOf({ ...this.app.selection.box, ...pattern }, this.app.state.ruleName); }

  async paste() {
    try {
      this.pasted(await navigator.clipboard.readText());
    } catch {
      this.app.say("The browser lets no button read the clipboard: press Ctrl and V.");
    }
  }

  pasted(text) {
    try {
      this.app.ghost.take(readRle(text));
      this.app.say("Click, or move it with the arrows and press Enter, to place it; Escape drops it.");
    } catch (fault) {
      this.app.say(`What was copied can't be pasted: ${fault.message}.`);
    }
  }
}
