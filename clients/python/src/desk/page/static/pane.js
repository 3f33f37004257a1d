// A pane: the picture of the pattern at one place.

import { cssColor } from "./colors.js";
import { statesIn } from "./frames.js";
import { Readout } from "./readout.js";

export const MOST_CELLS = 65536;

export class Pane {
  constructor(app, index) {
    Object.assign(this, { app, index, branch: 0, generation: 0n, gesture: null, unsure: [], cursor: null });
    this.node = document.createElement("div");
    this.node.className = "pane" + (index ? " there" : "");
    this.canvas = document.createElement("canvas");
    this.canvas.tabIndex = 0;
    this.canvas.setAttribute("role", "img");
    this.tag = line("tag"), this.due = line("due");
    const spot = line("spot");
    this.readout = new Readout(app, this, spot);
    this.words = line("words");
    this.words.append(this.tag);
    this.node.append(this.canvas, this.words, this.due, spot);
    this.context = this.canvas.getContext("2d");
    this.listen();
  }

  get place() { return { branch: this.branch, generation: this.generation, rule: this.rule }; }

  // 1 where the pattern is shown under the second rule.
  get rule() { return this.index && this.app.state.second ? 1 : 0; }

  // What is told of the rule.
  get side() { return this.app.rules.of(this.place); }

  get colors() { return this.side.colors; }

  get size() { return { w: this.canvas.width, h: this.canvas.height }; }

  // The view that shows what is in sight: a window, or the whole pattern where that has too many cells.
  view() {
    const { w, h } = this.size, { camera } = this.app;
    if (camera.zoom < 0) return "mc";
    const side = 2 ** camera.zoom, columns = Math.ceil(w / side) + 1, rows = Math.ceil(h / side) + 1;
    const corner = camera.corner(w, h);
    if (columns * rows > MOST_CELLS) {
      if (!this.app.frames.get(this.place, "mc")?.refused) return "mc";
      return `window ${camera.x - 128n} ${camera.y - 128n} 256 256`;  // the whole was too much to draw
    }
    return `window ${corner.x} ${corner.y} ${columns} ${rows}`;
  }

  resize() {
    const w = Math.max(1, this.node.clientWidth), h = Math.max(1, this.node.clientHeight);
    if (w !== this.canvas.width || h !== this.canvas.height) Object.assign(this.canvas, { width: w, height: h });
  }

  draw() {
    const { w, h } = this.size, { app, context } = this;
    this.unsure = this.unsure.filter((it) => !it.isDone || it.epoch > app.frames.epochOf(this.place));
    const known = app.frames.of(this.place), view = this.view(), it = known.get(view);
    const isDifference = this.index > 0 && app.difference.isShown && !app.difference.isTooFar;
    this.fillUnknown(w, h);
    const isDrawn = this.index > 0 && app.difference.isShown && app.difference.draw(this);
    const isKnown = it && !it.refused && (isDrawn || !isDifference);
    const others = isDifference ? [] : [...known.values()].filter((other) => other.states || other.squares);
    if (isKnown && !isDrawn) this.drawFrame(it);
    else others.forEach((other) => this.drawFrame(other));
    this.drawGrid(w, h);
    this.drawMarks();
    this.node.classList.toggle("active", app.panes.length > 1 && app.pane === this);
    const where = app.rules.placeWords(this.place);
    this.tag.textContent = where;
    this.due.hidden = Boolean(isKnown);
    this.due.textContent = this.whyNot(it, isDifference);
    this.canvas.setAttribute("aria-label", `${this.what(where, isDifference)}, ${isKnown ? "current" : "pending"}`);
    this.node.dataset.known = isKnown ? `${this.branch}|${this.generation}|${app.frames.epochOf(this.place)}` : "";
    this.readout.draw();
    context.globalAlpha = 1;
  }

  // What is shown, in words.
  what(where, isDifference) {
    if (!isDifference) return `picture of ${where}`;
    const from = this.app.rules.placeWords(this.app.panes[0].place);
    return `difference of ${from} and ${where}: ${this.app.difference.node.textContent}`;
  }

  // Why nothing is drawn.
  whyNot(it, isDifference) {
    if (it?.refused) return `not shown: ${it.refused.words}`;
    return isDifference ? "pending: both pictures aren't known yet" : `pending: ${this.app.status.progress(this.side)}`;
  }

  // The cells in sight; where a pixel has many, it stands for 2^up by 2^up.
  area() {
    const { w, h } = this.size, { camera } = this.app, side = 2 ** Math.max(0, camera.zoom);
    const columns = Math.ceil(w / side), rows = Math.ceil(h / side), up = Math.max(0, -camera.zoom);
    return { ...camera.corner(w, h), columns, rows, up, side };
  }

  hasInSight(x, y) {
    const { x: left, y: top, columns, rows, up } = this.area(), scale = BigInt(up);
    const column = (x - left) >> scale, row = (y - top) >> scale;
    return column >= 0n && row >= 0n && column < BigInt(columns) && row < BigInt(rows);
  }

  fillUnknown(w, h) {
    const { context } = this;
    context.fillStyle = "#4a4138";
    context.fillRect(0, 0, w, h);
    context.strokeStyle = "#6d5c48";
    context.lineWidth = 3;
    context.beginPath();
    for (let at = -h; at < w; at += 16) { context.moveTo(at, h); context.lineTo(at + h, 0); }
    context.stroke();
  }

  drawFrame(frame) {
    const area = this.area(), states = statesIn(frame, area), inks = this.app.rules.inksOf(this.place);
    this.drawStates(area, (it) => states[it] < 0 ? 0 : inks[states[it]]);
  }

  // Draws each cell of an area in its color, and nothing where that is 0.
  drawStates({ columns, rows, side }, inkOf) {
    const image = new ImageData(columns, rows), cells = new Uint32Array(image.data.buffer);
    for (let it = 0; it < cells.length; it++) cells[it] = inkOf(it);
    if (!this.small) this.small = document.createElement("canvas");
    Object.assign(this.small, { width: columns, height: rows });
    this.small.getContext("2d").putImageData(image, 0, 0);
    this.context.imageSmoothingEnabled = false;
    this.context.drawImage(this.small, 0, 0, columns * side, rows * side);
  }

  drawGrid(w, h) {
    if (this.app.camera.zoom < 3) return;
    const side = 2 ** this.app.camera.zoom, { context } = this;
    context.fillStyle = "rgba(128,128,140,.28)";
    for (let x = 0; x < w; x += side) context.fillRect(x, 0, 1, h);
    for (let y = 0; y < h; y += side) context.fillRect(0, y, w, 1);
  }

  // Cells that were painted and aren't confirmed, and the keyboard's cell.
  drawMarks() {
    const strokes = [...this.unsure, ...(this.gesture?.cells ? [this.gesture] : [])];
    for (const { cells } of strokes) {
      for (const [key, state] of cells) this.drawUnsure(...key.split(" ").map(BigInt), state);
    }
    this.app.selection.drawOn(this);
    this.app.ghost.drawOn(this);
    this.app.why.drawOn(this);
    if (this.cursor && document.activeElement === this.canvas && this.hasKeys) {
      const spot = this.pixelOf(this.cursor.x, this.cursor.y);
      this.outline({ ...spot, w: spot.side, h: spot.side });
    }
  }

  drawUnsure(x, y, state) {
    const { context } = this, spot = this.pixelOf(x, y);
    context.fillStyle = cssColor(this.colors[state]);
    context.fillRect(spot.x, spot.y, spot.side, spot.side);
    context.strokeStyle = "#fff";
    context.lineWidth = 1;
    context.setLineDash([2, 2]);
    context.strokeRect(spot.x + 0.5, spot.y + 0.5, spot.side - 1, spot.side - 1);
    context.setLineDash([]);
  }

  // A frame that is seen on any color.
  outline({ x, y, w, h }) {
    const { context } = this;
    for (const [color, width] of [["#fff", 3], ["#0a5bd3", 1]]) {
      context.strokeStyle = color;
      context.lineWidth = width;
      context.strokeRect(x - 1, y - 1, w + 2, h + 2);
    }
  }

  pixelOf(x, y) {
    const { w, h } = this.size, { camera } = this.app, corner = camera.corner(w, h);
    const side = 2 ** Math.max(0, camera.zoom), cells = 1n << BigInt(Math.max(0, -camera.zoom));
    return { x: Number((x - corner.x) / cells) * side, y: Number((y - corner.y) / cells) * side, side };
  }

  // Where the pointer is in the picture, which is drawn from a whole pixel of the screen on, also where the page's
  // layout puts it between two.
  pixelOfPointer(event) {
    const { left, top } = this.canvas.getBoundingClientRect();
    const whole = (it) => Math.round(it * devicePixelRatio) / devicePixelRatio;
    return { x: event.clientX - whole(left), y: event.clientY - whole(top) };
  }

  listen() {
    const { canvas } = this;
    canvas.addEventListener("pointerdown", (event) => this.down(event));
    canvas.addEventListener("pointermove", (event) => this.moved(event));
    canvas.addEventListener("pointerleave", () => this.readout.follow(null));
    canvas.addEventListener("pointerup", () => this.up());
    canvas.addEventListener("pointercancel", () => { this.gesture = null; this.app.draw(); });
    canvas.addEventListener("contextmenu", (event) => event.preventDefault());
    canvas.addEventListener("wheel", (event) => {
      event.preventDefault();
      const { camera } = this.app, { w, h } = this.size, { x, y } = this.pixelOfPointer(event);
      camera.zoomTo(camera.zoom + (event.deltaY < 0 ? 1 : -1), x, y, w, h);
      this.app.changed();
    }, { passive: false });
    canvas.addEventListener("keydown", (event) => this.key(event));
    canvas.addEventListener("focus", () => { this.app.choosePane(this.index); this.app.draw(); });
    canvas.addEventListener("blur", () => { this.hasKeys = false; this.app.draw(); });
  }

  down(event) {
    this.app.choosePane(this.index);
    this.hasKeys = false;
    this.canvas.focus({ preventScroll: true });
    this.canvas.setPointerCapture(event.pointerId);
    this.gesture = this.app.tools.gesture(this, event);
    this.moved(event);
  }

  moved(event) {
    const { w, h } = this.size, pixel = this.pixelOfPointer(event);
    const cell = this.app.camera.cellAt(pixel.x, pixel.y, w, h);
    this.readout.follow(pixel);
    if (this.app.ghost.pattern && !this.gesture) this.app.ghost.follow(cell);
    this.gesture?.moved(cell, event);
  }

  up() {
    const { gesture } = this;
    this.gesture = null;
    gesture?.end();
    this.app.changed();
  }

  isUnsure(cell) { return this.unsure.some((it) => it.cells.has(`${cell.x} ${cell.y}`)); }

  // Paints cells, a map from `x y` to the state. They are shown as unsure until the program has them.
  async paint(cells) {
    if (!cells.size) return;
    const stroke = { cells };
    this.unsure.push(stroke);
    this.app.changed();
    const words = [...cells].map(([key, state]) => [...key.split(" "), state]);
    const reply = await this.app.ask("paint", { ...this.app.words(this.place), cells: words });
    if (reply.changed?.length) {
      this.app.say(`Changed intervention ${reply.changed.join(" and ")}, which acts again and again.`);
    }
    stroke.isDone = true;
    this.unsure = this.unsure.filter((it) => it !== stroke || !reply.refused && this.due.hidden === false);
    this.app.draw();
  }

  key(event) {
    const step = { ArrowLeft: [-1, 0], ArrowRight: [1, 0], ArrowUp: [0, -1], ArrowDown: [0, 1] }[event.key];
    const { camera } = this.app, { w, h } = this.size;
    if (event.altKey || event.ctrlKey || event.metaKey) return;
    if (this.app.selectionPanel.key(event)) {
      // what is selected or held has the keys
    } else if (step && event.shiftKey) {
      camera.x += BigInt(step[0]) * camera.cells(w / 4);
      camera.y += BigInt(step[1]) * camera.cells(h / 4);
      this.app.changed();
    } else if (step) {
      this.moveCursor(step);
    } else if (event.key === "Enter") {
      this.cursor ??= { x: camera.x, y: camera.y };
      const { ink } = this.app.palette;
      if (this.app.why.isOn) this.app.why.ask(this, this.cursor);
      else if (ink === null) this.app.say("Choose a state to paint with first.");
      else this.paint(new Map([[`${this.cursor.x} ${this.cursor.y}`, ink]]));
    } else {
      return;
    }
    event.preventDefault();
    event.stopPropagation();
  }

  moveCursor([dx, dy]) {
    const { camera } = this.app, one = camera.zoom < 0 ? 1n << BigInt(-camera.zoom) : 1n;
    this.cursor ??= { x: camera.x, y: camera.y };
    this.cursor = { x: this.cursor.x + BigInt(dx) * one, y: this.cursor.y + BigInt(dy) * one };
    this.hasKeys = true;
    this.readout.follow(null);
    this.app.say(() => this.cursor ? `cell ${this.readout.words(this.cursor)}` : "");
    this.app.draw();
  }
}

function line(name) {
  const node = document.createElement("div");
  node.className = name;
  return node;
}
