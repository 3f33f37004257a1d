// The shelf of stamps: patterns that are kept, and placed by a click.

import { cssColor } from "./colors.js";
import { readRle, rleOf } from "./rle.js";

const SIDE = 34;

export class Shelf {
  constructor(app, node) {
    Object.assign(this, { app, node, list: node.querySelector(".stamps"), field: node.querySelector("input") });
    node.querySelector("button").addEventListener("click", () => app.try(() => this.keep()));
    node.addEventListener("toggle", () => { if (node.open) this.load(); });
    node.addEventListener("drop", (event) => this.dropped(event));
  }

  open() {
    this.node.open = !this.node.open;
    if (this.node.open) this.node.querySelector("summary").focus();
  }

  async load() { this.show(await this.app.ask("stamps")); }

  // Keeps what is held over the picture, or what is selected.
  async keep() {
    const { app } = this, pattern = app.ghost.pattern ?? await app.selection.pattern();
    const name = this.field.value.trim() || `stamp ${this.list.children.length + 1}`;
    this.show(await app.ask("keep_stamp", { name, text: rleOf({ x: 0, y: 0, ...pattern }, app.state.ruleName) }));
    this.field.value = "";
  }

  // RLE files that are dropped here are kept as stamps.
  async dropped(event) {
    event.preventDefault();
    event.stopPropagation();
    document.getElementById("drop").hidden = true;
    for (const file of event.dataTransfer.files) {
      this.show(await this.app.ask("keep_stamp", { name: file.name.replace(/\.rle$/i, ""), text: await file.text() }));
    }
  }

  show(reply) {
    if (reply.refused) return;
    this.list.replaceChildren(...reply.stamps.map((it) => this.entry(it)));
  }

  entry({ name, text }) {
    const entry = document.createElement("li"), button = document.createElement("button");
    const remove = document.createElement("button");
    button.append(this.picture(text), name);
    button.title = `Place ${name}`;
    button.addEventListener("click", () => this.app.try(async () => this.app.ghost.take(readRle(text))));
    remove.textContent = "✕";
    remove.setAttribute("aria-label", `Remove the stamp ${name}`);
    remove.addEventListener("click", async () => this.show(await this.app.ask("drop_stamp", { name })));
    entry.append(button, remove);
    return entry;
  }

  picture(text) {
    const canvas = document.createElement("canvas"), context = canvas.getContext("2d");
    Object.assign(canvas, { width: SIDE, height: SIDE });
    context.fillStyle = cssColor(this.app.state.colors[0]);
    context.fillRect(0, 0, SIDE, SIDE);
    try {
      const { w, h, states } = readRle(text), side = Math.max(0.25, Math.min(6, (SIDE - 4) / Math.max(w, h)));
      const left = (SIDE - w * side) / 2, top = (SIDE - h * side) / 2;
      states.forEach((it, at) => {
        if (!it) return;
        context.fillStyle = cssColor(this.app.state.colors[it]);
        context.fillRect(left + at % w * side, top + Math.floor(at / w) * side, Math.max(1, side), Math.max(1, side));
      });
    } catch {
      context.fillText("?", SIDE / 2, SIDE / 2);  // a click says what is wrong with it
    }
    return canvas;
  }
}
