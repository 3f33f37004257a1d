// The timeline: branches as lanes from their forks, interventions as ticks and combs, bookmarks as flags.

import { Scale, read, spelled } from "./scale.js";

const NAMESPACE = "http://www.w3.org/2000/svg";
const LEFT = 84, AXIS = 22, LANE = 42, MOST_TEETH = 240, PERIOD = 2400;

export function element(name, attributes = {}, ...kids) {
  const node = document.createElementNS(NAMESPACE, name);
  for (const [key, value] of Object.entries(attributes)) node.setAttribute(key, value);
  node.append(...kids);
  return node;
}

// Branches with their parents before them: ids in the order of their lanes.
export function lanes(branches) {
  const found = [], add = (id) => {
    found.push(id);
    branches.filter((it) => it.parent === id).forEach((it) => add(it.id));
  };
  add(0);
  return found;
}

const tick = (x, y) => `M${x} ${y + 3}v6l-3.5 3 3.5 3 3.5-3-3.5-3`;

export class Timeline {
  constructor(app, node) {
    Object.assign(this, { app, node, drag: null });
    this.svg = element("svg", { role: "group", "aria-label": "Timeline of branches" });
    node.append(this.svg);
    this.svg.addEventListener("pointermove", (event) => this.moved(event));
    this.svg.addEventListener("pointerup", (event) => this.up(event));
    this.svg.addEventListener("pointercancel", () => { this.drag = null; this.draw(); });
    this.svg.addEventListener("keydown", (event) => this.key(event));
    // Lanes are found by their place, since they may be drawn anew between a press and its release.
    this.svg.addEventListener("click", (event) => this.click(event));
    this.svg.addEventListener("dblclick", (event) => this.click(event, true));
  }

  click(event, isMark = false) {
    const box = this.svg.getBoundingClientRect(), x = event.clientX - box.left, y = event.clientY - box.top;
    const branch = lanes(this.app.state.branches)[Math.floor((y - AXIS - 1) / LANE)];
    if (branch === undefined || this.wasItem || y < AXIS) return;
    const generation = this.generationAt(branch, event);
    if (x < LEFT - 8) this.app.select("branches", branch);
    else if (isMark || event.shiftKey) this.app.edits.mark({ branch, generation });
    else this.app.go({ branch, generation });
  }

  draw() {
    if (this.drag?.isMoving) return;
    const focused = document.activeElement?.closest?.("[data-key]")?.dataset.key, { state } = this.app;
    const width = Math.max(300, this.node.clientWidth), order = lanes(state.branches);
    this.scale = new Scale(LEFT, width - 26, this.app.near, this.app.far);
    this.forks = new Map([[0, 0n], ...state.branches.map((it) => [it.id, BigInt(it.generation)])]);
    this.y = new Map(order.map((id, place) => [id, AXIS + LANE * place + 26]));
    const height = AXIS + LANE * order.length + 6;
    this.svg.setAttribute("viewBox", `0 0 ${width} ${height}`);
    this.svg.setAttribute("height", height);
    // What is being computed fades in and out, and goes on with that where it is drawn anew.
    this.svg.classList.toggle("computing", this.app.status.isComputing);
    this.svg.classList.toggle("stopped", Boolean(state.cause || state.isLost));
    this.svg.style.setProperty("--since", `${-(performance.now() % PERIOD)}ms`);
    const all = order.map((id) => this.lane(id, width));
    this.svg.replaceChildren(this.axis(height), ...all, ...this.heads(), ...this.items());
    if (focused) this.svg.querySelector(`[data-key="${focused}"]`)?.focus({ preventScroll: true });
  }

  axis(height) {
    const group = element("g", { class: "axis", "aria-hidden": "true" });
    for (const tick of this.scale.ticks()) {
      group.append(element("line", { x1: tick.x, x2: tick.x, y1: 15, y2: height }));
      const words = element("text", { x: tick.x, y: 11, "text-anchor": "middle" });
      words.textContent = tick.words;
      group.append(words);
    }
    const { seam } = this.scale, at = { x1: seam, x2: seam, y1: 0, y2: height };
    if (seam < this.scale.right) group.append(element("line", { class: "seam", ...at }));
    return group;
  }

  lane(id, width) {
    const { state } = this.app, y = this.y.get(id), left = this.scale.at(this.forks.get(id));
    const group = element("g", { class: id === this.app.pane.branch ? "chosen" : "", "data-lane": id });
    const hit = element("rect", { class: "hit", x: 0, y: y - 25, width, height: LANE });
    group.append(hit);
    const parent = state.branches.find((it) => it.id === id)?.parent;
    if (parent !== undefined) {
      const from = this.y.get(parent);
      group.append(element("path", { class: "fork", d: `M${left} ${from}V${y - 6}Q${left} ${y} ${left + 6} ${y}` }));
    }
    group.append(element("line", { class: "lane", x1: left, x2: this.scale.right, y1: y, y2: y }));
    const ends = { true: -1, false: -1 };
    for (const it of state.bookmarks) {
      if (it.branch === id) ends[it.isCurrent] = Math.max(ends[it.isCurrent], this.scale.at(it.generation));
    }
    const known = ends.true, due = ends.false, from = Math.max(left, known), to = Math.max(due, known);
    if (due > left) group.append(element("line", { class: "lane due", x1: from, x2: to, y1: y, y2: y }));
    if (known > left) group.append(element("line", { class: "lane known", x1: left, x2: known, y1: y, y2: y }));
    const isButton = { role: "button", tabindex: 0, "data-key": `branches ${id}` };
    const name = element("text", { class: "name", x: 2, y: y + 4, ...isButton });
    name.textContent = `branch ${id}`;
    const leaves = id ? ` from generation ${spelled(this.forks.get(id))} of branch ${parent}` : "";
    name.setAttribute("aria-label", `branch ${id}${leaves}`);
    group.append(name);
    return group;
  }

  items() {
    const { state } = this.app, found = [];
    for (const it of state.interventions) {
      const repeats = it.distance !== "0";
      const words = `intervention ${it.id}, ${it.cells} cells, ` +
        (repeats ? `every ${it.distance} from ${it.first} to ${it.last}` : `generation ${spelled(BigInt(it.first))}`);
      const item = this.item("interventions", it, BigInt(it.first), words, "intervention");
      const path = repeats ? this.comb(it) : tick(this.scale.at(it.first), this.y.get(it.branch));
      item.prepend(element("path", { d: path }));
      found.push(item);
    }
    const last = new Map();
    const before = (a, b) => a.branch - b.branch || Number(BigInt(a.generation) - BigInt(b.generation));
    for (const it of [...state.bookmarks].sort(before)) {
      const x = this.scale.at(it.generation), y = this.y.get(it.branch), isCurrent = it.isCurrent;
      const known = isCurrent ? "current" : `pending: ${this.app.status.why()}`;
      const words = `bookmark ${it.id}, ${it.view}, generation ${spelled(BigInt(it.generation))}, ${known}`;
      const name = `bookmark ${isCurrent ? "current" : "pending"}`;
      const item = this.item("bookmarks", it, BigInt(it.generation), words, name);
      item.prepend(element("path", { d: `M${x} ${y - 7}v-14l9 4.5l-9 4.5` }));
      const most = last.get(it.branch) ?? -99;
      if (x > most + 30) {
        const label = element("text", { x: x + 15, y: y - 11 });
        label.textContent = it.id;
        item.append(label);
        last.set(it.branch, x);
      }
      found.push(item);
    }
    return found;
  }

  comb(it) {
    const y = this.y.get(it.branch), first = this.scale.at(it.first), last = this.scale.at(it.last);
    let path = `M${first} ${y + 15}H${last}`, before = -9;
    const distance = BigInt(it.distance), most = BigInt(it.last);
    let teeth = 0;
    for (let at = BigInt(it.first); at <= most && teeth < MOST_TEETH; teeth++) {
      const x = this.scale.at(at);
      if (x > this.scale.right + 2) break;
      if (x >= before + 3) { path += `M${x} ${y + 3}V${y + 15}`; before = x; }
      // The next tooth that can be seen apart.
      const next = BigInt(Math.ceil(this.scale.raw(x + 3)));
      const steps = next > at ? (next - at + distance - 1n) / distance : 1n;
      at += distance * (steps > 0n ? steps : 1n);
    }
    return path;
  }

  item(kind, it, generation, words, name) {
    const key = `${kind} ${it.id}`, { selected } = this.app, x = this.scale.at(generation), y = this.y.get(it.branch);
    const isSelected = selected?.kind === kind && selected.id === it.id;
    const node = element("g", { class: `item ${name}${isSelected ? " selected" : ""}`, role: "button", tabindex: 0,
      "aria-label": words, "data-key": key, "data-generation": generation });
    const title = element("title");
    title.textContent = words;
    const isFlag = kind === "bookmarks", width = isFlag ? 17 : 14, height = isFlag ? 22 : 15;
    const box = { x: x - (isFlag ? 4 : 7), y: y + (isFlag ? -23 : 2), width, height };
    node.append(element("rect", { class: "halo", rx: 3, ...box }), title);
    node.addEventListener("pointerdown", (event) => {
      if (event.button !== 0) return;
      event.preventDefault();
      node.focus({ preventScroll: true });
      this.drag = { kind, id: it.id, branch: it.branch, generation, from: event.clientX, isMoving: false };
      this.svg.setPointerCapture(event.pointerId);
    });
    return node;
  }

  heads() {
    const shown = this.app.panes.filter((it) => !it.rule), areTwo = shown.length > 1;
    return shown.map((pane) => {
      const x = this.scale.at(pane.generation), y = this.y.get(pane.branch) ?? AXIS;
      const group = element("g", { class: pane.index ? "head there" : "head", "aria-hidden": "true" });
      const spot = element("circle", { cx: x, cy: y, r: areTwo ? 7 : 5 });
      group.append(element("line", { x1: x, x2: x, y1: 15, y2: y + 16 }), spot);
      if (areTwo) {
        const words = element("text", { x, y: y + 3.5, "text-anchor": "middle" });
        words.textContent = pane.index ? "R" : "L";
        group.append(words);
      }
      return group;
    });
  }

  generationAt(branch, event) {
    const box = this.svg.getBoundingClientRect(), found = this.scale.back(event.clientX - box.left);
    const fork = this.forks.get(branch);
    return found < fork ? fork : found;
  }

  moved(event) {
    const { drag } = this;
    if (!drag || !drag.isMoving && Math.abs(event.clientX - drag.from) < 4) return;
    drag.isMoving = true;
    drag.generation = this.generationAt(drag.branch, event);
    this.ghost?.remove();
    const x = this.scale.at(drag.generation), y = this.y.get(drag.branch);
    const words = element("text", { x: x + 5, y: y - 16 });
    words.textContent = spelled(drag.generation);
    this.ghost = element("g", { class: "ghost" }, element("line", { x1: x, x2: x, y1: y - 24, y2: y + 12 }), words);
    this.svg.append(this.ghost);
  }

  up() {
    const { drag } = this;
    this.drag = null;
    this.wasItem = Boolean(drag);  // the click that follows is none on the lane
    this.ghost?.remove();
    if (!drag) return;
    if (drag.isMoving) this.app.edits.move(drag.kind, drag.id, drag.generation);
    else this.app.select(drag.kind, drag.id);
  }

  key(event) {
    const node = event.target.closest("[data-key]");
    if (!node) return;
    const [kind, word] = node.dataset.key.split(" "), id = Number(word);
    const step = { ArrowLeft: -1n, ArrowRight: 1n }[event.key];
    if (step && kind !== "branches") {
      const next = read(node.dataset.generation) + step * (event.shiftKey ? 10n : 1n);
      if (next >= this.forks.get(this.app.entry(kind, id).branch)) this.app.edits.move(kind, id, next);
    } else if (event.key === "Enter" || event.key === " ") {
      this.app.select(kind, id);
    } else if (event.key === "Delete" || event.key === "Backspace") {
      this.app.edits.remove(kind, id);
    } else {
      return;
    }
    event.preventDefault();
    event.stopPropagation();
  }
}
