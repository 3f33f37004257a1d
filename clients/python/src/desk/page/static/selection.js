// A selected rectangle of the plane, and what is done with the cells in it at the place of the active picture.

import { MOST_CELLS } from "./pane.js";
import { MOST_LIVE, cellsOf, cornerTurned, inState, mirrored, turned } from "./pattern.js";
import { statesIn } from "./frames.js";

export class Selection {
  constructor(app, node) {
    Object.assign(this, { app, node, box: null });
    this.words = node.querySelector("h2");
  }

  // Takes the rectangle of two cells in its corners, or none.
  set(one, other) {
    if (!one) this.box = null;
    else {
      const [left, right] = ordered(one.x, other.x), [top, bottom] = ordered(one.y, other.y);
      this.box = { x: left, y: top, w: Number(right - left) + 1, h: Number(bottom - top) + 1 };
    }
    this.app.changed();
  }

  // Selects all live cells.
  async all() {
    const { squares } = await this.app.wanted.frame(this.app.pane.place, "mc"), box = squares.box();
    if (!box) return this.app.say("There is no live cell to select.");
    this.set(box, { x: box.x + box.w - 1n, y: box.y + box.h - 1n });
  }

  // The rectangle, which has to be there, and not too large for a window.
  get window() {
    const { box } = this;
    if (!box) throw new Error("nothing is selected: drag with Shift in the picture");
    if (box.w * box.h > MOST_CELLS) throw new Error(`the selection has more than ${MOST_CELLS} cells`);
    return box;
  }

  // The cells in it at the place of the active picture, or null where they aren't known.
  known() {
    const { window } = this;
    for (const frame of this.app.frames.of(this.app.pane.place).values()) {
      const found = frame.states || frame.squares ? patternIn(frame, window) : null;
      if (found) return found;
    }
    return null;
  }

  // The same, as soon as they are known.
  async pattern() {
    const { window } = this, { x, y, w, h } = window, found = this.known();
    if (found) return found;
    return patternIn(await this.app.wanted.frame(this.app.pane.place, `window ${x} ${y} ${w} ${h}`), window);
  }

  async turn(isClockwise) {
    const old = await this.pattern(), corner = cornerTurned(this.box);
    await this.replace(old, turned(old, isClockwise), corner);
  }

  async mirror(isAcross) {
    const old = await this.pattern();
    await this.replace(old, mirrored(old, isAcross), this.box);
  }

  // Lays another rectangle in place of the one that is selected, as one edit.
  async replace(old, pattern, corner) {
    const cells = new Map([...inState(cellsOf(old, this.box), 0), ...cellsOf(pattern, corner)]);
    this.box = { x: corner.x, y: corner.y, w: pattern.w, h: pattern.h };
    await this.app.pane.paint(cells);
  }

  // Sets all its cells to what a function gives.
  async setEach(stateOf) {
    const { window } = this, states = Uint8Array.from({ length: window.w * window.h }, stateOf);
    await this.app.pane.paint(cellsOf({ ...window, states }, window, true));
  }

  fill() {
    const { ink } = this.app.palette;
    if (ink === null) throw new Error("choose a state to fill with first");
    return this.setEach(() => ink);
  }

  // Half of the cells become live: in the state that is chosen, or else in any.
  random() {
    const { palette, state } = this.app, most = state.states === 256 && !state.rule ? 1 : state.states - 1;
    return this.setEach(() => Math.random() < 0.5 ? 0 : palette.ink || 1 + Math.floor(Math.random() * most));
  }

  async clearInside() { await this.app.pane.paint(inState(cellsOf(await this.pattern(), this.box), 0)); }

  async clearOutside() {
    const { box } = this, { squares } = await this.app.wanted.frame(this.app.pane.place, "mc"), found = new Map();
    if (!box) throw new Error("nothing is selected: drag with Shift in the picture");
    for (const [x, y] of squares.liveCells()) {
      const isInside = x >= box.x && y >= box.y && x < box.x + BigInt(box.w) && y < box.y + BigInt(box.h);
      if (!isInside) found.set(`${x} ${y}`, 0);
      if (found.size > MOST_LIVE) throw new Error(`more than ${MOST_LIVE} live cells are outside`);
    }
    if (found.size) await this.app.pane.paint(found);
    else this.app.say("No live cell is outside the selection.");
  }

  // Takes its cells up, so that they can be laid elsewhere.
  async lift() {
    const pattern = await this.pattern();
    this.app.ghost.take(pattern, this.box, inState(cellsOf(pattern, this.box), 0));
  }

  draw() {
    const { box } = this;
    this.node.hidden = !box && !this.app.ghost.pattern;
    if (box) this.words.textContent = `Selection: ${box.w} by ${box.h} at (${box.x}, ${box.y})`;
    if (this.app.ghost.pattern) this.words.textContent = this.app.ghost.words();
  }

  drawOn(pane) {
    if (!this.box) return;
    const { x, y, side } = pane.pixelOf(this.box.x, this.box.y), end = pane.pixelOf(
      this.box.x + BigInt(this.box.w), this.box.y + BigInt(this.box.h));
    pane.outline({ x, y, w: Math.max(side, end.x - x), h: Math.max(side, end.y - y) });
  }
}

// The cells of a rectangle, or null where a frame doesn't have all of them.
function patternIn(frame, { x, y, w, h }) {
  const states = statesIn(frame, { x, y, columns: w, rows: h, up: 0 });
  return states.includes(-1) ? null : { w, h, states: Uint8Array.from(states) };
}

const ordered = (one, other) => one < other ? [one, other] : [other, one];
