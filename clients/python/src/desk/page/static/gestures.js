// What a press of the pointer on a picture begins: each is told where the pointer goes, and when it is released.

import { key } from "./pattern.js";

const FAR = "Zoom in to paint: a pixel has many cells here.", MOST_FILLED = 100000;

// Moves what all pictures show.
export class Pan {
  constructor(app, pane, event) {
    Object.assign(this, { app, x: event.offsetX, y: event.offsetY, from: { ...app.camera } });
  }

  moved(cell, event) {
    const { camera } = this.app;
    camera.x = this.from.x - camera.cells(event.offsetX - this.x);
    camera.y = this.from.y - camera.cells(event.offsetY - this.y);
    this.app.draw();
  }

  end() { this.app.changed(); }
}

// Asks why the cell of the press is so, unless the picture is moved by it.
export class Ask extends Pan {
  constructor(app, pane, event) {
    super(app, pane, event);
    Object.assign(this, { pane, cell: null, hasMoved: false });
  }

  moved(cell, event) {
    this.cell ??= cell;
    this.hasMoved ||= Math.hypot(event.offsetX - this.x, event.offsetY - this.y) > 4;
    if (this.hasMoved) super.moved(cell, event);
  }

  end() {
    if (!this.hasMoved) this.app.why.ask(this.pane, this.cell);
    super.end();
  }
}

// Paints the cells that the pointer goes over.
export class Pen {
  constructor(app, pane) { Object.assign(this, { app, pane, cells: new Map(), last: null }); }

  moved(cell) {
    if (this.app.camera.zoom < 0) return this.app.say(FAR);
    for (const [x, y] of line(this.last ?? cell, cell)) this.cells.set(key(x, y), this.app.palette.ink);
    this.last = cell;
    this.app.draw();
  }

  end() { this.pane.paint(this.cells); }
}

// Paints what lies between the cell of the press and the one of the release.
class Spanning {
  constructor(app, pane) { Object.assign(this, { app, pane, cells: new Map(), from: null }); }

  moved(cell) {
    if (this.app.camera.zoom < 0) return this.app.say(FAR);
    this.from ??= cell;
    this.cells = new Map(this.between(this.from, cell).map(([x, y]) => [key(x, y), this.app.palette.ink]));
    this.app.draw();
  }

  end() { this.pane.paint(this.cells); }
}

export class Line extends Spanning {
  between(from, to) { return line(from, to); }
}

export class Rectangle extends Spanning {
  between(from, to) {
    const corners = [from, { x: to.x, y: from.y }, to, { x: from.x, y: to.y }, from];
    return corners.slice(1).flatMap((it, place) => line(corners[place], it));
  }
}

// Fills what is connected to the cell of the press and has its state, as far as that ends within what is known.
export class Bucket {
  constructor(app, pane) { Object.assign(this, { app, pane, cell: null }); }

  moved(cell) { this.cell ??= cell; }

  end() {
    const { app, pane, cell } = this, stateOf = (x, y) => app.frames.stateAt(pane.place, { x, y });
    const from = stateOf(cell.x, cell.y), found = new Map(), next = [[cell.x, cell.y]];
    if (app.camera.zoom < 0) return app.say(FAR);
    if (from === null) return app.say("This cell is pending, and can't be filled yet.");
    if (from === app.palette.ink) return app.say("It has this state already.");
    while (next.length) {
      const [x, y] = next.pop();
      if (found.has(key(x, y))) continue;
      if (stateOf(x, y) !== from) continue;
      if (!pane.hasInSight(x, y) || found.size > MOST_FILLED) return app.say("This area isn't closed in sight.");
      found.set(key(x, y), app.palette.ink);
      next.push([x + 1n, y], [x - 1n, y], [x, y + 1n], [x, y - 1n]);
    }
    pane.paint(found);
  }
}

// Takes the state of a cell to paint with.
export class Pick {
  constructor(app, pane) { Object.assign(this, { app, pane, cell: null }); }

  moved(cell) { this.cell = cell; }

  end() {
    const state = this.app.frames.stateAt(this.pane.place, this.cell);
    if (state === null) this.app.say("This cell is pending.");
    else this.app.palette.choose(state);
  }
}

// Selects the rectangle between the press and the release; a press alone selects nothing.
export class Select {
  constructor(app) { Object.assign(this, { app, from: null, hasMoved: false }); }

  moved(cell) {
    this.from ??= cell;
    this.hasMoved ||= cell.x !== this.from.x || cell.y !== this.from.y;
    if (this.hasMoved) this.app.selection.set(this.from, cell);
  }

  end() { if (!this.hasMoved) this.app.selection.set(null); }
}

// Places the pattern that is held over the picture.
export class Place {
  constructor(app, pane, event) { Object.assign(this, { app, hasEmpty: event.shiftKey }); }

  moved(cell) { this.app.ghost.follow(cell); }

  end() { this.app.ghost.place(this.hasEmpty); }
}

// Cells on a line between two, so that a fast stroke has no gaps.
export function line(from, to) {
  const dx = Number(to.x - from.x), dy = Number(to.y - from.y), most = Math.max(1, Math.abs(dx), Math.abs(dy));
  return Array.from({ length: most + 1 }, (_, it) =>
    [from.x + BigInt(Math.round(dx * it / most)), from.y + BigInt(Math.round(dy * it / most))]);
}
