// What the pattern at the place of the active picture has: how many cells of each state, and its bounding box.

import { cssColor } from "./colors.js";
import { countsOf, lookAt, placeKey } from "./frames.js";
import { spelled } from "./scale.js";

// Milliseconds at a place before it is asked for, and the most cells of a pattern whose box is.
const SETTLED = 250, MOST_CELLS = 200000, MOST_ROWS = 16;

export class Census {
  constructor(app, node) { Object.assign(this, { app, node, at: "", isSettled: false, hasCounts: false, told: "" }); }

  // Only what stays for a moment is counted, so that steps aren't slower.
  looks() {
    const { app } = this, { place } = app.pane, at = `${placeKey(place)} ${app.frames.epochOf(place)}`;
    if (at !== this.at) {
      Object.assign(this, { at, isSettled: false });
      clearTimeout(this.timer);
      this.timer = setTimeout(() => { this.isSettled = true; app.changed(); }, SETTLED);
    }
    if (!this.isSettled || app.player.isPlaying) return [];
    const counts = this.counts(place), looks = [lookAt(place, "counts")];
    const isSmall = counts && sum(counts) <= MOST_CELLS;
    return isSmall ? [...looks, lookAt(place, "mc")] : looks;
  }

  // How many cells each state has, or null where that isn't known.
  counts(place) { return countsOf(this.app.frames.get(place, "counts")); }

  draw() {
    const { place } = this.app.pane, counts = this.counts(place), squares = this.app.frames.get(place, "mc")?.squares;
    const box = this.boxWords(counts, squares);
    if (Boolean(counts) !== this.hasCounts) {
      this.hasCounts = Boolean(counts);
      this.app.changed();  // now the box can be asked for, or the counts have to be
    }
    const { colors, names } = this.app.pane.side, rule = this.app.rules.words(place, "under ");
    const told = JSON.stringify([counts && [...counts], box, colors, names, rule]);
    if (told === this.told) return;
    this.told = told;
    const head = document.createElement("p");
    head.append(part("population", counts ? spelled(BigInt(sum(counts))) : "pending"), part("box", box));
    if (rule) head.prepend(part("rule", rule));
    this.node.replaceChildren(head, this.table(counts ?? new Map()));
  }

  boxWords(counts, squares) {
    if (counts && !sum(counts)) return "none";
    if (counts && sum(counts) > MOST_CELLS && !squares) return "not asked for";
    if (!squares) return "pending";
    const box = squares.box();
    return box ? `${spelled(box.w)} by ${spelled(box.h)} at (${box.x}, ${box.y})` : "none";
  }

  table(counts) {
    const table = document.createElement("table");
    for (const [state, count] of [...counts].slice(0, MOST_ROWS)) {
      const row = table.insertRow(), spot = document.createElement("i");
      spot.style.background = cssColor(this.app.pane.colors[state]);
      row.insertCell().append(spot, this.app.rules.stateName(state, this.app.pane.place));
      row.insertCell().append(spelled(BigInt(count)));
    }
    return table;
  }
}

function part(name, words) {
  const found = document.createElement("span");
  found.dataset.part = name;
  found.className = words === "pending" ? "hatched" : "";
  found.append(name === "rule" ? words : `${name} ${words}`);
  return found;
}

const sum = (counts) => [...counts.values()].reduce((one, two) => one + two, 0);
