// What is known of patterns, by place and view, and only as far as it is of the present document.

import { Squares } from "./squares.js";

const MOST = 150;

// A place is a generation of a branch, under the rule or, where its `rule` is 1, under the second one.
export const placeKey = (place) => `${place.rule ?? 0}|${place.branch}|${place.generation}`;

// What the server is asked for a view of a place.
export const lookAt = (place, view) => [place.branch, `${place.generation}`, view, place.rule ?? 0];

// What is known under both rules.
export class Frames {
  constructor() { this.under = [new FramesOfRule(), new FramesOfRule()]; }

  begin({ epoch, second }) {
    this.under[0].begin(epoch);
    this.under[1].begin(second ? second.epoch : -1);
  }

  // Which document is shown under the rule of a place: something else where patterns may be others.
  epochOf(place) { return this.under[place.rule ?? 0].epoch; }

  take(message) { this.under[message.rule ?? 0].take(message); }

  of(place) { return this.under[place.rule ?? 0].of(place); }

  get(place, view) { return this.of(place).get(view); }

  // The state of a cell, or null where no view that is known has it.
  stateAt(place, { x, y }) {
    for (const frame of this.of(place).values()) {
      const state = stateIn(frame, x, y);
      if (state !== null) return state;
    }
    return null;
  }
}

class FramesOfRule {
  constructor() {
    this.epoch = -1;
    this.places = new Map();
  }

  // A document in which patterns may differ: what was known is of no use.
  begin(epoch) {
    if (epoch === this.epoch) return;
    this.epoch = epoch;
    this.places.clear();
  }

  take(message) {
    if (message.epoch < this.epoch) return;
    this.begin(message.epoch);
    const key = placeKey(message), views = this.places.get(key) ?? new Map();
    this.places.delete(key);
    this.places.set(key, views);
    views.set(message.view, read(message));
    while (this.places.size > MOST) this.places.delete(this.places.keys().next().value);
  }

  // The views that are known of a place: a Map. What is in use is kept longest, since it isn't sent again.
  of(place) {
    const key = placeKey(place), views = this.places.get(key);
    if (!views) return new Map();
    this.places.delete(key);
    this.places.set(key, views);
    return views;
  }
}

function read(message) {
  if (message.refused) return { refused: message.refused };
  const [kind, ...numbers] = message.view.split(" ");
  if (kind === "mc") return { squares: new Squares(message.text) };
  if (kind !== "window") return { text: message.text };
  const [x, y] = numbers.slice(0, 2).map(BigInt), [w, h] = numbers.slice(2).map(Number);
  const states = new Uint8Array(w * h), text = message.text;
  let place = 0, it = -1;
  for (let at = 0; at <= text.length; at++) {
    const sign = at < text.length ? text.charCodeAt(at) - 48 : -1;
    if (sign >= 0 && sign <= 9) it = it < 0 ? sign : it * 10 + sign;
    else if (it >= 0) { states[place++] = it; it = -1; }
  }
  return { x, y, w, h, states };
}

// How many cells each state has, by the text of counts; null where that isn't known.
export function countsOf(frame) {
  if (frame?.text === undefined) return null;
  return new Map(frame.text.split("\n").filter((it) => /^\d/.test(it)).map((it) => it.split(" ").map(Number)));
}

function stateIn(frame, x, y) {
  if (frame.squares) return frame.squares.stateAt(x, y);
  if (!frame.states) return null;
  const column = x - frame.x, row = y - frame.y;
  if (column < 0n || row < 0n || column >= BigInt(frame.w) || row >= BigInt(frame.h)) return null;
  return frame.states[Number(row) * frame.w + Number(column)];
}

// The states of an area, row after row, and -1 where the frame doesn't tell. At `up` above 0 each stands for
// 2^up by 2^up cells: it is the state of a live cell among them, where there is one.
export function statesIn(frame, { x, y, columns, rows, up }) {
  const found = new Int16Array(columns * rows);
  if (frame.squares) {
    frame.squares.draw(x, y, up, columns, rows, (column, row, state) => { found[row * columns + column] = state; });
    return found;
  }
  const left = Number(x - frame.x), top = Number(y - frame.y);
  for (let it = 0; it < found.length; it++) {
    const column = left + it % columns, row = top + Math.floor(it / columns);
    const isThere = !up && column >= 0 && row >= 0 && column < frame.w && row < frame.h;
    found[it] = isThere ? frame.states[row * frame.w + column] : -1;
  }
  return found;
}
