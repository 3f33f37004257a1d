// The difference of two places side by side, cell for cell, in the right picture.

import { inkOf } from "./colors.js";
import { lookAt, statesIn } from "./frames.js";

// What a cell can be that differs, with its color. Cells that are equal are drawn dim.
export const KINDS = [
  { name: "left", words: "live only left", color: [74, 163, 255] },
  { name: "right", words: "live only right", color: [255, 111, 174] },
  { name: "other", words: "live in both, in other states", color: [255, 212, 71] },
];
const UNKNOWN = 255, DARK = 28, DIM = 0.26;

// For each cell 0 where both are equal, else 1 and more as in KINDS; and how many there are of each kind.
export function compared(left, right) {
  const kinds = new Uint8Array(left.length), counts = [0, 0, 0];
  for (let it = 0; it < kinds.length; it++) {
    const one = left[it], two = right[it];
    if (one < 0 || two < 0) kinds[it] = UNKNOWN;
    else if (one !== two) counts[(kinds[it] = two === 0 ? 1 : one === 0 ? 2 : 3) - 1]++;
  }
  return { kinds, counts };
}

export class Difference {
  constructor(app) {
    Object.assign(this, { app, isOn: false });
    this.node = document.createElement("div");
    this.node.className = "differ";
  }

  get isShown() { return this.isOn && this.app.panes.length > 1; }

  // A pixel that has many cells would show one of them, which may be equal where another isn't.
  get isTooFar() { return this.app.camera.zoom < 0; }

  // What is asked of both places: what is in sight in the right picture.
  view() {
    const [left, right] = this.app.panes;
    return this.app.frames.get(left.place, "mc")?.refused ? left.view() : right.view();
  }

  looks() {
    if (!this.isShown || this.isTooFar) return [];
    return this.app.panes.map((it) => lookAt(it.place, this.view()));
  }

  // Draws it into the right picture. Whether it did, which it doesn't before both places are known.
  draw(pane) {
    const { app, node } = this, view = this.view(), frames = app.panes.map((it) => app.frames.get(it.place, view));
    const isKnown = !this.isTooFar && frames.every((it) => it && !it.refused);
    if (node.parentNode !== pane.words) pane.words.append(node);
    let words = this.isTooFar ? "The difference is shown at 1 : 1 and above only." : "difference: pending", counts = [];
    if (isKnown) {
      const area = pane.area(), [left, right] = frames.map((it) => statesIn(it, area)), found = compared(left, right);
      const inks = KINDS.map((it) => inkOf(it.color)), dim = pane.colors.map((it) => inkOf(it.map(dimmed)));
      pane.drawStates(area, (it) => found.kinds[it] === UNKNOWN ? 0 : inks[found.kinds[it] - 1] ?? dim[right[it]]);
      counts = found.counts;
      const sum = counts.reduce((one, two) => one + two), isPart = found.kinds.includes(UNKNOWN);
      words = `${sum} ${sum === 1 ? "cell differs" : "cells differ"}${isPart ? " in what is drawn" : " in sight"}`;
      pane.node.dataset.differ = counts.join();
    } else {
      pane.node.dataset.differ = "";
    }
    this.tell(words, counts);
    return isKnown;
  }

  tell(words, counts) {
    const told = [words, ...counts].join();
    if (this.told === told) return;
    this.told = told;
    this.node.replaceChildren(words);
    counts.forEach((count, it) => {
      const entry = document.createElement("span"), spot = document.createElement("i");
      spot.style.background = `rgb(${KINDS[it].color.join(" ")})`;
      entry.append(spot, `${count} ${KINDS[it].words}`);
      this.node.append(entry);
    });
  }
}

const dimmed = (it) => Math.round(DARK + (it - DARK) * DIM);
