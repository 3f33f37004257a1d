// Running until something is so: what is searched for, how far that is, and where it was found.

import { mark } from "./fields.js";
import { FARTHEST, read, spelled } from "./scale.js";

// What can be searched for, and what its number is.
const KINDS = { least: "cells", most: "cells", empty: "", state: "state", again: "" };

export class Until {
  constructor(app, node) {
    Object.assign(this, { app, node, isRunning: false, epoch: null, kind: node.querySelector("select") });
    [this.number, this.last] = node.querySelectorAll("input");
    this.button = node.querySelector("button");
    this.output = node.querySelector("output");
    this.button.addEventListener("click", () => this.toggle());
    this.kind.addEventListener("change", () => this.app.changed());
    for (const it of [this.number, this.last]) it.addEventListener("input", () => mark(it, ""));
  }

  open() {
    this.node.open = true;
    this.kind.focus();
  }

  // Begins, or cancels what was begun.
  async toggle() {
    const { app } = this;
    if (this.isRunning) return this.cancel();
    const asked = this.asked();
    if (!asked) return;
    this.begin("searching");
    const reply = await app.link.ask("search", asked);
    if (reply.refused) this.end(`Not searched: ${reply.refused.words}.`);
  }

  // What is asked for, or undefined where a number is wrong, which is marked, or nothing is selected.
  asked() {
    const { app } = this, kind = this.kind.value, { box } = app.selection;
    const number = KINDS[kind] ? read(this.number.value) : 0n;
    const last = this.last.value ? read(this.last.value) : FARTHEST;
    mark(this.number, number === null ? "A number such as 1000." : "");
    mark(this.last, last === null ? "A generation such as 1000, 1e6 or 2^60." : "");
    if (number === null || last === null) return undefined;
    if (kind === "state" && !box) return this.end("Select where the state has to appear first.");
    const window = kind === "state" ? [`${box.x}`, `${box.y}`, box.w, box.h] : null;
    return { ...app.words(app.pane.place), kind, number: `${number}`, last: `${last}`, window };
  }

  cancel() {
    this.app.link.ask("cancel");
    this.end("The search was cancelled.");
  }

  // What the server tells of it.
  take({ looked, found, fault }) {
    if (!this.isRunning) return;
    if (looked !== undefined) this.tell(`searching: generation ${spelled(BigInt(looked))}`);
    else if (fault) this.end(`The search ended: ${fault}.`);
    else if (!found) this.end("It is so at none of the generations that were looked at.", true);
    else this.found(found);
  }

  found({ generation, period, shift }) {
    const at = BigInt(generation), from = spelled(at), [x, y] = shift;
    this.app.go({ generation: at });
    const moved = x !== "0" || y !== "0" ? `, each time moved by (${x}, ${y})` : "";
    const again = `The pattern of generation ${from} comes again after ${spelled(BigInt(period))} generations${moved}.`;
    const isStill = period === "1" && !moved, still = `The pattern doesn't change from generation ${from} on.`;
    this.end(period === "0" ? `It is so at generation ${from}.` : isStill ? still : again, true);
  }

  begin(words) {
    this.isRunning = true;
    this.epoch = null;
    this.tell(words);
    this.app.changed();
  }

  // Says how it ended: where that is of the patterns, as long as they are the present ones.
  end(words, isOfPatterns = false) {
    this.isRunning = false;
    this.epoch = isOfPatterns ? this.app.rules.epochs : null;
    this.tell(words);
    this.app.changed();
  }

  tell(words) { this.output.textContent = words; }

  draw() {
    const label = this.number.closest("label"), what = KINDS[this.kind.value];
    if (this.epoch !== null && this.epoch !== this.app.rules.epochs) this.tell("");
    label.hidden = !what;
    label.firstChild.textContent = `${what} `;
    this.button.textContent = this.isRunning ? "Cancel" : "Run";
    this.output.classList.toggle("hatched", this.isRunning);
  }
}
