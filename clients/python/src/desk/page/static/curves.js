// Counts by state along a lane, as curves under the timeline and on its scale.

import { element } from "./timeline.js";
import { spelled } from "./scale.js";
import { cssColor } from "./colors.js";
import { countsOf, lookAt } from "./frames.js";

const APART = 14, HEIGHT = 116, TOP = 12, BOTTOM = 102, MOST = 90;

export class Curves {
  constructor(app, node) {
    Object.assign(this, { app, node, isLog: false });
    this.svg = element("svg", { role: "img", height: HEIGHT });
    const bar = document.createElement("div");
    bar.className = "row";
    this.words = document.createElement("span");
    const label = document.createElement("label"), box = document.createElement("input");
    box.type = "checkbox";
    box.id = "log";
    box.addEventListener("change", () => { this.isLog = box.checked; this.draw(); });
    label.append(box, " logarithmic (L)");
    this.box = box;
    bar.append(this.words, label);
    node.append(bar, this.svg);
  }

  // The generations at which states are counted: some pixels apart, on fixed places of the scale.
  generations() {
    const { app } = this, { branch, generation } = app.pane, { scale, forks } = app.timeline, fork = forks.get(branch);
    if (fork === undefined) return [];
    let to = generation > fork ? generation : fork;
    for (const it of app.state.bookmarks) {
      if (it.branch === branch && BigInt(it.generation) > to) to = BigInt(it.generation);
    }
    const found = new Set([fork]), last = scale.at(to);
    for (let x = scale.left; x < last && found.size < MOST; x += APART) {
      const it = scale.back(x);
      if (it > fork) found.add(it);
    }
    return [...found, to].sort((a, b) => a < b ? -1 : Number(a > b)).filter((it, place, all) => it !== all[place - 1]);
  }

  looks() {
    if (this.node.hidden) return [];
    return this.generations().map((generation) => lookAt({ ...this.app.pane.place, generation }, "counts"));
  }

  draw() {
    if (this.node.hidden) return;
    const { app } = this, width = Math.max(300, this.node.clientWidth), { scale } = app.timeline, { place } = app.pane;
    const generations = this.generations(), states = new Map();
    let known = 0, most = 1;
    generations.forEach((generation, number) => {
      const counts = countsOf(app.frames.get({ ...place, generation }, "counts"));
      if (!counts) return;
      known++;
      for (const state of counts.keys()) if (!states.has(state)) states.set(state, []);
      for (const [state, points] of states) {
        points.push({ place: number, x: scale.at(generation), count: counts.get(state) ?? 0 });
      }
      for (const count of counts.values()) most = Math.max(most, count);
    });
    this.svg.setAttribute("viewBox", `0 0 ${width} ${HEIGHT}`);
    const what = `Cells of each state along branch ${place.branch}${app.rules.words(place, ", under ")}`;
    const share = `${known} of ${generations.length} places`;
    this.svg.setAttribute("aria-label", `${what}, up to ${most}; ${share} are known`);
    const isPending = known < generations.length;
    this.words.textContent = what + (isPending ? `, pending: ${share} known` : "");
    const box = { x: scale.left, y: TOP - 4, width: scale.right - scale.left, height: BOTTOM - TOP + 8 };
    this.svg.replaceChildren(element("rect", { ...box, fill: "#24242c", rx: 4 }));
    this.grid(most, scale);
    const taken = [];
    for (const [state, points] of [...states].sort((a, b) => a[0] - b[0])) this.curve(state, points, most, taken);
  }

  height(count, most) {
    const share = this.isLog ? Math.log10(count + 1) / Math.log10(most + 1) : count / most;
    return BOTTOM - (BOTTOM - TOP) * share;
  }

  grid(most, scale) {
    const lines = this.isLog ? powers(most) : [0, most / 2, most].map(Math.round);
    let before = Infinity;
    for (const it of new Set(lines)) {
      const y = this.height(it, most);
      if (before - y < 12) continue;
      before = y;
      const words = element("text", { x: scale.left - 6, y: y + 4, "text-anchor": "end" });
      words.textContent = short(it);
      const at = { x1: scale.left, x2: scale.right, y1: y, y2: y };
      this.svg.append(element("line", { class: "curve-grid", ...at, "stroke-opacity": 0.35 }), words);
    }
  }

  curve(state, points, most, taken) {
    const color = lightened(this.app.pane.colors[state]);
    let path = "", before = -2;
    for (const { place, x, count } of points) {
      path += `${place === before + 1 ? "L" : "M"}${x.toFixed(1)} ${this.height(count, most).toFixed(1)}`;
      before = place;
    }
    this.svg.append(element("path", { class: "curve-line", d: path, stroke: color, "data-state": state }));
    for (const { x, count } of points) {
      this.svg.append(element("circle", { cx: x, cy: this.height(count, most), r: 2, fill: color }));
    }
    const last = points[points.length - 1];
    const words = element("text", { x: Math.min(last.x + 8, this.app.timeline.scale.right - 92) });
    words.setAttribute("y", freeHeight(taken, Math.max(TOP + 8, this.height(last.count, most) - 3)));
    words.style.fill = color;
    words.textContent = `state ${state}: ${short(last.count)}`;
    this.svg.append(words);
  }
}

// A state's color, lighter where it couldn't be told from the ground.
function lightened(color) {
  const [red, green, blue] = color, light = 0.3 * red + 0.59 * green + 0.11 * blue;
  const share = Math.max(0, (110 - light) / 220);
  return cssColor(color.map((it) => Math.round(it + (255 - it) * share)));
}

// A height for a label at which no other one is, near the wanted one.
function freeHeight(taken, wanted) {
  for (let by = 0; by < BOTTOM - TOP; by++) {
    for (const it of [wanted - by, wanted + by]) {
      if (it < TOP + 6 || it > BOTTOM || taken.some((other) => Math.abs(other - it) < 12)) continue;
      taken.push(it);
      return it;
    }
  }
  return wanted;
}

function powers(most) {
  const found = [0], every = Math.max(1, Math.ceil(Math.log10(most) / 5));
  for (let it = 0; 10 ** it <= most; it += every) found.push(10 ** it);
  return found;
}

const short = (it) => it < 1e7 ? spelled(BigInt(it)) : it.toExponential(2);
