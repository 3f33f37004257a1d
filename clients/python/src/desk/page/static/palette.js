// The states to paint with, in the rule's colors.

import { cssColor } from "./colors.js";

const MOST = 64;

export class Palette {
  constructor(app, node) { Object.assign(this, { app, node, ink: null, key: "" }); }

  draw() {
    const { colors, names, states } = this.app.state;
    if (this.ink >= states) this.ink = null;
    for (const pane of this.app.panes) pane.node.classList.toggle("paint", this.ink !== null);
    const key = JSON.stringify([colors, names, this.ink]);
    if (this.key === key) return;
    this.key = key;
    document.getElementById("ink").textContent = this.ink === null ? "" : this.app.rules.stateName(this.ink);
    const hadFocus = this.node.contains(document.activeElement);
    this.node.replaceChildren(this.entry(null), ...colors.slice(0, MOST).map((_, it) => this.entry(it)));
    if (hadFocus) this.node.querySelector("[aria-checked=true]").focus();
  }

  entry(ink) {
    const button = document.createElement("button"), isOn = this.ink === ink;
    button.setAttribute("role", "radio");
    button.setAttribute("aria-checked", isOn);
    button.setAttribute("aria-label", ink === null ? "move the picture" : this.app.rules.stateName(ink));
    const sign = ink < 10 ? ` (${ink})` : "";
    button.title = ink === null ? "Move the picture (H)" : `${this.app.rules.stateName(ink)}${sign}`;
    if (ink !== null) {
      const it = document.createElement("i");
      it.style.background = cssColor(this.app.state.colors[ink]);
      button.append(it);
    }
    button.append(ink === null ? "✥ move" : `${ink}`);
    button.dataset.ink = ink ?? "hand";
    button.addEventListener("click", () => this.choose(ink));
    return button;
  }

  choose(ink) {
    if (ink !== null && ink >= this.app.state.states) return;
    this.ink = ink;
    this.draw();
    const words = ink === null ? "" : this.app.rules.stateName(ink);
    this.app.say(ink === null ? "Drag to move the picture." : `Drag to paint ${words}; the right button moves.`);
  }
}
