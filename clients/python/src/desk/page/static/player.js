// Steps in time: how far one goes, and one after another by itself.

import { lookAt } from "./frames.js";
import { FARTHEST } from "./scale.js";

export const SPEEDS = [1, 2, 5, 10, 20, 30, 60];
const SECONDS_AHEAD = 0.6, LEAST_AHEAD = 8, MOST_AHEAD = 32, LARGEST_STEP = 60;

export class Player {
  constructor(app, button) { Object.assign(this, { app, button, step: 0, speed: 10, isPlaying: false }); }

  // The generation so many steps from where a pane is.
  after(pane, steps) {
    const found = pane.generation + BigInt(steps) * (1n << BigInt(this.step)), fork = this.app.forkOf(pane.branch);
    return found < fork ? fork : found > FARTHEST ? FARTHEST : found;
  }

  goBy(steps) { this.app.go({ generation: this.after(this.app.pane, steps) }); }

  setStep(step) {
    this.step = Math.max(0, Math.min(LARGEST_STEP, step));
    this.app.changed();
  }

  setSpeed(speed) {
    this.speed = speed;
    this.app.changed();
  }

  // The next of the speeds, up or down.
  changeSpeed(by) {
    const place = SPEEDS.indexOf(this.speed) + by;
    if (place >= 0 && place < SPEEDS.length) this.setSpeed(SPEEDS[place]);
  }

  // What comes next is asked for before it is shown.
  looks() {
    if (!this.isPlaying) return [];
    const ahead = Math.max(LEAST_AHEAD, Math.min(MOST_AHEAD, Math.ceil(this.speed * SECONDS_AHEAD)));
    return this.app.panes.flatMap((pane) => Array.from({ length: ahead }, (_, it) =>
      lookAt({ ...pane.place, generation: this.after(pane, it + 1) }, pane.view())));
  }

  play(isOn = !this.isPlaying) {
    if (this.isPlaying === isOn) return;
    this.isPlaying = isOn;
    this.button.setAttribute("aria-pressed", isOn);
    this.button.textContent = isOn ? "❚❚ Pause" : "▶ Play";
    this.app.changed();
    this.due = performance.now();
    if (isOn) this.tick();
  }

  // Goes on as soon as what is shown is known: nothing is left out.
  tick() {
    if (!this.isPlaying) return;
    const { app } = this, now = performance.now(), apart = 1000 / this.speed;
    if (now >= this.due && app.panes.every((it) => it.node.dataset.known)) {
      for (const pane of app.panes) pane.generation = this.after(pane, 1);
      this.due = Math.max(this.due + apart, now);
      app.reach();
      app.changed();
    }
    setTimeout(() => this.tick(), Math.max(4, Math.min(apart, this.due - performance.now())));
  }
}
