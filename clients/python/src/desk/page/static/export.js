// Saving the pattern at the place of the active picture, or what of it is selected: as RLE, as macrocell text, as PNG.

import { cssColor } from "./colors.js";
import { download } from "./files.js";
import { rleOf } from "./rle.js";
import { macrocellOf } from "./macrocell.js";

const MOST_SIDE = 4096, ENOUGH = 512;

export class Export {
  constructor(app, node) {
    Object.assign(this, { app, what: node.querySelector("select") });
    for (const button of node.querySelectorAll("[data-kind]")) {
      button.addEventListener("click", () => app.try(() => this.save(button.dataset.kind)));
    }
  }

  draw() {
    const [, selected] = this.what.options;
    selected.disabled = !this.app.selection.box;
    if (selected.disabled) this.what.value = "all";
  }

  async save(kind) {
    const { app } = this, { branch, generation } = app.pane, isPart = this.what.value === "selection";
    const under = app.pane.rule ? "second-rule-" : "", part = isPart ? "selection-of-" : "";
    const name = `${under}${part}branch-${branch}-generation-${generation}.${kind}`;
    app.say(`Saving ${name}.`);
    if (kind === "png") return download(await (isPart ? this.partPng() : this.wholePng()), name);
    download(isPart ? await this.part(kind) : await this.whole(kind), name);
  }

  async part(kind) {
    const { box } = this.app.selection, pattern = { ...box, ...await this.app.selection.pattern() };
    return new Blob([(kind === "rle" ? rleOf : macrocellOf)(pattern, this.app.pane.side.ruleName)]);
  }

  // The program's own text, however long it is.
  async whole(kind) {
    const { branch, generation, rule } = this.app.pane;
    const place = `branch=${branch}&generation=${generation}&rule=${rule}`;
    const answer = await fetch(`pattern?${place}&view=${kind}`);
    if (!answer.ok) throw new Error((await answer.text()).trim());
    return answer.blob();
  }

  async partPng() {
    const { w, h, states } = await this.app.selection.pattern();
    return this.drawn(w, h, (put) => states.forEach((it, at) => { if (it) put(at % w, Math.floor(at / w), it); }));
  }

  // A pixel has more than one cell where the pattern is too large.
  async wholePng() {
    const { squares } = await this.app.wanted.frame(this.app.pane.place, "mc"), box = squares.box();
    if (!box) throw new Error("there is no live cell");
    let up = 0;
    while (box.w >> BigInt(up) >= MOST_SIDE || box.h >> BigInt(up) >= MOST_SIDE) up++;
    const pixels = (it) => Number((it + (1n << BigInt(up)) - 1n) >> BigInt(up)) + (up ? 1 : 0);
    const scale = 1n << BigInt(up), corner = (it) => it - ((it % scale) + scale) % scale;
    const w = pixels(box.w), h = pixels(box.h);
    return this.drawn(w, h, (put) => squares.draw(corner(box.x), corner(box.y), up, w, h, put));
  }

  // A picture of w by h, each pixel larger where there are few of them.
  drawn(w, h, fill) {
    const side = Math.max(1, Math.min(16, Math.floor(ENOUGH / Math.max(w, h)))), { colors } = this.app.pane;
    const canvas = document.createElement("canvas"), context = canvas.getContext("2d");
    Object.assign(canvas, { width: w * side, height: h * side });
    context.fillStyle = cssColor(colors[0]);
    context.fillRect(0, 0, w * side, h * side);
    fill((x, y, state) => {
      context.fillStyle = cssColor(colors[state]);
      context.fillRect(x * side, y * side, side, side);
    });
    return new Promise((done) => canvas.toBlob(done));
  }
}
