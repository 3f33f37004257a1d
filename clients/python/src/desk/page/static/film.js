// A run of generations as an animated PNG. Each frame is taken as soon as its text is current, and none before.

import { mark } from "./fields.js";
import { lookAt, statesIn } from "./frames.js";
import { FARTHEST, spelled } from "./scale.js";

const AHEAD = 8, MOST = 256, MILLISECONDS = 80;
const SIGNATURE = [137, 80, 78, 71, 13, 10, 26, 10];

export class Film {
  constructor(app, button, field) { Object.assign(this, { app, button, field, run: null }); }

  // Begins, or cancels what was begun.
  toggle() {
    if (this.run) return this.stop("The animation was cancelled.");
    const { app } = this, { pane } = app, count = Number(this.field.value);
    const isRight = Number.isInteger(count) && count >= 1 && count <= MOST;
    mark(this.field, isRight ? "" : `An animation has 1 to ${MOST} frames.`);
    if (!isRight) return;
    const view = pane.view(), step = 1n << BigInt(app.player.step), generations = [];
    for (let at = pane.generation; generations.length < count && at <= FARTHEST; at += step) generations.push(at);
    const area = clipped(pane.area(), view), { w, h } = pane.size;
    const size = { w: Math.min(w, area.columns * area.side), h: Math.min(h, area.rows * area.side) };
    const { place, colors } = pane, epoch = app.frames.epochOf(place);
    this.run = { place, view, step, generations, area, size, frames: [], epoch, colors };
    app.changed();
  }

  stop(words) {
    this.run = null;
    this.app.say(words);
    this.app.changed();
  }

  // What it waits for, in turn.
  looks() {
    const { run } = this;
    if (!run) return [];
    const due = run.generations.slice(run.frames.length, run.frames.length + AHEAD);
    return due.map((generation) => lookAt({ ...run.place, generation }, run.view));
  }

  // Takes what is known by now, and shows how far it is.
  draw() {
    const { app, run } = this;
    if (run && !run.isTaken) this.take(run);
    const isOn = this.run !== null;
    const share = isOn && `${this.run.frames.length} of ${this.run.generations.length}`;
    this.button.textContent = isOn ? `${share}: cancel` : "Animation";
    this.button.setAttribute("aria-pressed", isOn);
    this.field.disabled = isOn;
    if (this.run && this.run.frames.length !== this.asked) { this.asked = this.run.frames.length; app.changed(); }
  }

  take(run) {
    const { app } = this, { place, generations, view, frames } = run;
    const isOther = app.frames.epochOf(place) !== run.epoch;
    if (isOther) return this.stop("The experiment has changed: the animation was cancelled.");
    while (frames.length < generations.length) {
      const generation = generations[frames.length], frame = app.frames.get({ ...place, generation }, view);
      if (!frame) return;
      if (frame.refused) {
        return this.stop(`No animation: generation ${spelled(generation)} isn't shown: ${frame.refused.words}`);
      }
      frames.push(deflated(pixels(statesIn(frame, run.area), run)));
    }
    run.isTaken = true;
    this.save(run).catch((fault) => this.stop(`No animation: ${fault.message}`));
  }

  async save(run) {
    const blob = animated(run.size, run.colors, await Promise.all(run.frames)), link = document.createElement("a");
    if (this.run !== run) return;
    link.href = URL.createObjectURL(blob);
    link.download = this.name(run);
    link.click();
    setTimeout(() => URL.revokeObjectURL(link.href), 10000);
    this.stop(`Saved ${link.download}.`);
  }

  name({ place, generations, step }) {
    const rule = (this.app.rules.of(place).rule || "no-rule").replace(/\.rule(\.gz)?$/i, "").replace(/[^\w.-]+/g, "-");
    const of = `${rule}-branch-${place.branch}-generations-${generations[0]}-to-${generations.at(-1)}`;
    return `${of}${step > 1n ? `-by-${step}` : ""}.png`;
  }
}

// What of an area a window has: nothing else is known of it.
function clipped(area, view) {
  const [kind, ...numbers] = view.split(" ");
  if (kind !== "window") return area;
  const [x, y, w, h] = numbers.map(BigInt), most = (one, two) => one > two ? one : two;
  const left = most(area.x, x), top = most(area.y, y);
  const columns = Math.min(area.columns - Number(left - area.x), Number(x + w - left));
  const rows = Math.min(area.rows - Number(top - area.y), Number(y + h - top));
  return { ...area, x: left, y: top, columns, rows };
}

// Lines of a PNG: before each a byte that says that it isn't filtered.
function pixels(states, { size, area }) {
  const found = new Uint8Array((size.w + 1) * size.h), shift = Math.log2(area.side);
  for (let y = 0, at = 0; y < size.h; y++) {
    at++;
    const row = (y >> shift) * area.columns;
    for (let x = 0; x < size.w; x++) found[at++] = states[row + (x >> shift)];
  }
  return found;
}

async function deflated(bytes) {
  const stream = new Blob([bytes]).stream().pipeThrough(new CompressionStream("deflate"));
  return new Uint8Array(await new Response(stream).arrayBuffer());
}

// An animated PNG with the rule's colors as its palette, which is shown again and again.
export function animated({ w, h }, colors, frames) {
  const parts = [new Uint8Array(SIGNATURE), chunk("IHDR", [...word(w), ...word(h), 8, 3, 0, 0, 0]),
    chunk("acTL", [...word(frames.length), ...word(0)]), chunk("PLTE", colors.flat())];
  let sequence = 0;
  frames.forEach((frame, place) => {
    const time = [MILLISECONDS >> 8, MILLISECONDS & 255, 1000 >> 8, 1000 & 255];
    parts.push(chunk("fcTL", [...word(sequence++), ...word(w), ...word(h), ...word(0), ...word(0), ...time, 0, 0]));
    parts.push(place ? chunk("fdAT", word(sequence++), frame) : chunk("IDAT", [], frame));
  });
  return new Blob([...parts, chunk("IEND", [])], { type: "image/png" });
}

const word = (it) => [it >>> 24, it >>> 16 & 255, it >>> 8 & 255, it & 255];

function chunk(kind, head, tail = new Uint8Array()) {
  const size = head.length + tail.length, found = new Uint8Array(size + 12);
  found.set(word(size));
  found.set([...kind].map((it) => it.charCodeAt(0)), 4);
  found.set(head, 8);
  found.set(tail, 8 + head.length);
  found.set(word(sum(found.subarray(4, size + 8))), size + 8);
  return found;
}

// The CRC of a chunk, as PNG has it.
function sum(bytes) {
  let found = -1;
  for (const it of bytes) {
    found ^= it;
    for (let bit = 0; bit < 8; bit++) found = found >>> 1 ^ (found & 1 ? 0xedb88320 : 0);
  }
  return ~found >>> 0;
}
