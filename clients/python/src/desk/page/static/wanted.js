// What is asked for once: the text of a view at a place, which may have to be computed first.

import { lookAt, placeKey } from "./frames.js";

export class Wanted {
  constructor(app) { Object.assign(this, { app, asked: [] }); }

  looks() { return this.asked.map(({ place, view }) => lookAt(place, view)); }

  // The frame of a view, as soon as it is known. It fails where it is refused, or where the experiment changes before.
  frame(place, view) {
    const epoch = this.app.frames.epochOf(place);
    return new Promise((done, failed) => {
      this.asked.push({ place: { ...place }, view, epoch, done, failed });
      this.draw();
      this.app.changed();
    });
  }

  // Hands over what is known by now.
  draw() {
    const { app } = this, waiting = this.asked;
    this.asked = [];
    for (const it of waiting) {
      const frame = app.frames.get(it.place, it.view);
      if (it.epoch !== app.frames.epochOf(it.place)) it.failed(new Error("the experiment has changed"));
      else if (frame?.refused) it.failed(new Error(frame.refused.words));
      else if (frame) it.done(frame);
      else this.asked.push(it);
    }
    if (this.asked.length !== waiting.length) app.changed();
  }

  isPending(place) { return this.asked.some((it) => placeKey(it.place) === placeKey(place)); }
}
