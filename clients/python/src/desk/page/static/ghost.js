// A pattern that is about to be placed: it is seen where it would lie, and follows the pointer or the arrow keys.

import { cssColor } from "./colors.js";
import { MOST_LIVE, cellsOf, cornerTurned, mirrored, turned } from "./pattern.js";

export class Ghost {
  constructor(app) { Object.assign(this, { app, pattern: null, at: null, cleared: new Map() }); }

  // Takes a pattern up. `cleared` are cells that become empty when it is placed.
  take(pattern, at = null, cleared = new Map()) {
    const { camera } = this.app, { w, h } = pattern;
    const middle = { x: camera.x - BigInt(w >> 1), y: camera.y - BigInt(h >> 1) };
    Object.assign(this, { pattern, cleared, at: at ? { x: at.x, y: at.y } : middle });
    this.app.changed();
  }

  // Lays its middle on a cell.
  follow(cell) {
    this.at = { x: cell.x - BigInt(this.pattern.w >> 1), y: cell.y - BigInt(this.pattern.h >> 1) };
    this.app.draw();
  }

  move(dx, dy) {
    this.at = { x: this.at.x + BigInt(dx), y: this.at.y + BigInt(dy) };
    this.app.changed();
  }

  turn(isClockwise) {
    this.at = cornerTurned({ ...this.at, ...this.pattern });
    this.pattern = turned(this.pattern, isClockwise);
    this.app.changed();
  }

  mirror(isAcross) {
    this.pattern = mirrored(this.pattern, isAcross);
    this.app.changed();
  }

  drop() {
    this.pattern = null;
    this.app.changed();
  }

  // Places its live cells, and with `hasEmpty` its empty ones too. It is one edit.
  async place(hasEmpty = false) {
    const { pattern, at, cleared } = this, cells = new Map([...cleared, ...cellsOf(pattern, at, hasEmpty)]);
    if (cells.size > MOST_LIVE) return this.app.say(`That are more than ${MOST_LIVE} cells.`);
    this.drop();
    this.app.selection.box = { ...at, w: pattern.w, h: pattern.h };
    await this.app.pane.paint(cells);
  }

  words() {
    return `To be placed: ${this.pattern.w} by ${this.pattern.h} at (${this.at.x}, ${this.at.y})`;
  }

  drawOn(pane) {
    const { pattern, at, app } = this, { context } = pane;
    if (!pattern) return;
    context.globalAlpha = 0.75;
    for (const cells of [this.cleared, cellsOf(pattern, at)]) {
      for (const [key, state] of cells) {
        const spot = pane.pixelOf(...key.split(" ").map(BigInt));
        context.fillStyle = cssColor(pane.colors[state]);
        context.fillRect(spot.x, spot.y, spot.side, spot.side);
      }
    }
    context.globalAlpha = 1;
    const from = pane.pixelOf(at.x, at.y), to = pane.pixelOf(at.x + BigInt(pattern.w), at.y + BigInt(pattern.h));
    context.setLineDash([4, 3]);
    pane.outline({ x: from.x, y: from.y, w: to.x - from.x, h: to.y - from.y });
    context.setLineDash([]);
  }
}
