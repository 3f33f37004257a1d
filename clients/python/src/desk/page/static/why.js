// Why a cell is so: what is asked for, and whether the answer is of what is shown now.

import { lookAt, placeKey } from "./frames.js";
import { PLACES } from "./neighbourhood.js";
import { WhyPanel } from "./why_panel.js";

export class Why {
  constructor(app, node, button) {
    Object.assign(this, { app, button, isOn: false, pane: null, cell: null, asked: "", answer: null });
    this.panel = new WhyPanel(app, node, () => this.close());
    button.addEventListener("click", () => this.toggle());
  }

  // The keyboard's cell is asked about at once; or else clicks in pictures ask, until that is ended.
  toggle() {
    const { pane } = this.app;
    if (!this.isOn && pane.hasKeys && pane.cursor) return this.ask(pane, pane.cursor);
    this.isOn = !this.isOn;
    this.app.say(this.isOn ? "Click a cell to see why it is so; Escape ends that." : "Clicks paint and move again.");
    this.app.changed();
  }

  // Ends asking by clicks. Whether there was something to end.
  end() {
    if (!this.isOn) return false;
    this.toggle();
    return true;
  }

  ask(pane, cell) {
    Object.assign(this, { pane, cell: { ...cell } });
    this.app.changed();
  }

  close() {
    Object.assign(this, { cell: null, isOn: false });
    this.app.changed();
  }

  // The picture in which it was asked, where that is still shown.
  get shownIn() { return this.app.panes.includes(this.pane) ? this.pane : this.app.panes[0]; }

  get place() { return this.shownIn.place; }

  // What the answer has to be of.
  get key() { return [placeKey(this.place), this.cell.x, this.cell.y, this.epoch].join(" "); }

  get epoch() { return this.app.frames.epochOf(this.place); }

  // Where the generation before is, if the cell has its state from there.
  get before() {
    const { origin } = this.known() ?? {};
    const { place } = this;
    return origin?.kind === "step" ? { ...place, branch: origin.branch, generation: place.generation - 1n } : null;
  }

  looks() {
    if (!this.cell) return [];
    const { place, before, cell: { x, y } } = this, now = lookAt(place, `window ${x} ${y} 1 1`);
    return before ? [now, lookAt(before, `window ${x - 1n} ${y - 1n} 3 3`)] : [now];
  }

  // The answer, where it is of what is shown now.
  known() { return this.answer?.key === this.key && this.answer.epoch === this.epoch ? this.answer : null; }

  // The nine states at and around the cell at the generation before, or null where they aren't known.
  around() {
    const { before, cell, app } = this;
    if (!before) return null;
    const stateAt = ([, x, y]) => app.frames.stateAt(before, { x: cell.x + BigInt(x), y: cell.y + BigInt(y) });
    const found = PLACES.map(stateAt);
    return found.includes(null) ? null : found;
  }

  draw() {
    const { app, button } = this;
    button.setAttribute("aria-pressed", this.isOn);
    for (const pane of app.panes) pane.node.classList.toggle("why", this.isOn);
    if (this.cell) this.fetch(this.around());
    this.panel.draw(this.shown());
  }

  // What the panel shows: what is known of the cell at the place that is shown now.
  shown() {
    const { app, cell } = this;
    if (!cell) return null;
    const { place } = this, answer = this.known(), shown = app.frames.stateAt(place, cell), around = this.around();
    const isStep = answer?.origin?.kind === "step", isWhole = isStep ? answer.reason || answer.fault : answer?.origin;
    return { cell, place, shown, around, isPending: shown === null || !isWhole, ...answer };
  }

  // Asks for what isn't known yet: where the state is from, and then, with the states around, why.
  async fetch(around) {
    const { key, app } = this, asked = JSON.stringify([key, around]);
    if (asked === this.asked || this.known()?.reason || this.known()?.fault || !app.isOpen) return;
    this.asked = asked;
    const { x, y } = this.cell, at = { ...app.words(this.place), x: `${x}`, y: `${y}` };
    const answer = await app.link.ask("why", { ...at, around });
    if (this.asked !== asked) return;
    this.answer = { ...answer, key };
    if (answer.refused) this.asked = "";
    app.changed();
  }

  drawOn(pane) {
    if (!this.cell || pane !== this.shownIn) return;
    const { x, y, side } = pane.pixelOf(this.cell.x, this.cell.y);
    pane.outline({ x, y, w: side, h: side });
  }
}
