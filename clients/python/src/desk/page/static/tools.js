// The tools to draw with, and which gesture a press of the pointer begins.

import { Ask, Bucket, Line, Pan, Pen, Pick, Place, Rectangle, Select } from "./gestures.js";

const TOOLS = { pen: Pen, line: Line, rectangle: Rectangle, bucket: Bucket, select: Select };

export class Tools {
  constructor(app, node) {
    Object.assign(this, { app, node, tool: "pen" });
    for (const button of node.querySelectorAll("[data-tool]")) {
      button.addEventListener("click", () => this.choose(button.dataset.tool));
    }
  }

  choose(tool) {
    this.tool = tool;
    if (tool !== "select" && this.app.palette.ink === null) this.app.palette.choose(1);
    this.app.say(tool === "select" ? "Drag to select." : `Drag or click to paint with the ${tool}.`);
    this.app.changed();
  }

  // The next tool.
  next() {
    const all = Object.keys(TOOLS);
    this.choose(all[(all.indexOf(this.tool) + 1) % all.length]);
  }

  draw() {
    for (const button of this.node.querySelectorAll("[data-tool]")) {
      const isOn = button.dataset.tool === this.tool && (this.tool === "select" || this.app.palette.ink !== null);
      button.setAttribute("aria-pressed", isOn);
    }
  }

  // Alt picks a state, Shift selects, and other buttons than the first move the picture.
  gesture(pane, event) {
    const { app, tool } = this;
    const kind = event.button !== 0 ? Pan : app.ghost.pattern ? Place : app.why.isOn ? Ask
      : event.altKey ? Pick : event.shiftKey ? Select
      : tool === "select" ? Select : app.palette.ink === null ? Pan : TOOLS[tool];
    return new kind(app, pane, event);
  }
}
