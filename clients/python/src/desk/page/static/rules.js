// What is told of the rule in use, and of a second one, under which the right picture shows the same.

import { inkOf } from "./colors.js";
import { spelled } from "./scale.js";

export class Rules {
  constructor(app) { Object.assign(this, { app, inks: [new Uint32Array(256), new Uint32Array(256)] }); }

  take({ colors, second }) {
    [colors, second?.colors ?? []].forEach((all, rule) => {
      all.forEach((color, it) => { this.inks[rule][it] = inkOf(color); });
    });
  }

  // What is told of the rule of a place.
  of(place) { return (place.rule && this.app.state.second) || this.app.state; }

  inksOf(place) { return this.inks[place.rule ?? 0]; }

  // Of which documents the patterns under both are.
  get epochs() { return [this.app.state.epoch, this.app.state.second?.epoch].join(); }

  stateName(state, place = {}) {
    const name = this.of(place).names[state];
    return name ? `state ${state}: ${name}` : `state ${state}`;
  }

  // The name of a place's rule between other words, where there are two; else none at all.
  words(place, before = "", behind = "") {
    const { state } = this.app, name = this.of(place).ruleName || "no rule";
    if (!state.second) return "";
    return `${before}${name}${place.rule && state.ruleName === name ? " (second)" : ""}${behind}`;
  }

  placeWords(place) {
    return `${this.words(place, "", ": ")}branch ${place.branch}, generation ${spelled(place.generation)}`;
  }

  get isSecondDue() {
    const { second } = this.app.state;
    return Boolean(second && (second.pending || second.isLost));
  }

  // What is known under the second rule, in words for the status.
  knownOfSecond() {
    const { state, status, isOpen } = this.app, { second } = state;
    if (!second || !isOpen) return [];
    const under = this.words({ rule: 1 }, "Under ", ": ");
    if (second.isLost) return [`${under}the program was lost.`];
    if (second.cause) return [`${under}pending, ${status.why(second)}`];
    return [`${under}${second.pending ? "computing" : "all is current"}.`];
  }
}
