// The colors and names of states, edited by swatches: they stand in the section @COLORS of the rule's text.

import { mark } from "./fields.js";

const HEX = (it) => it.toString(16).padStart(2, "0");

export class Swatches {
  constructor(ruleText, node) {
    Object.assign(this, { ruleText, node, key: "" });
    node.addEventListener("toggle", () => this.draw());
  }

  draw() {
    const { colors, names, states, epoch } = this.ruleText.app.state, key = JSON.stringify([colors, names, states]);
    if (epoch < 0 || !this.node.open || key === this.key) return;
    this.key = key;
    const list = this.node.querySelector("ul"), focused = document.activeElement;
    const had = focused.closest(".swatches li")?.dataset.state, hadName = focused.type === "text";
    const entries = colors.slice(0, states).map((color, state) => this.entry(state, color, names[state] ?? ""));
    list.replaceChildren(...entries);
    if (had) list.querySelector(`[data-state="${had}"] input[type=${hadName ? "text" : "color"}]`)?.focus();
  }

  entry(state, color, name) {
    const entry = document.createElement("li"), ink = document.createElement("input");
    const field = document.createElement("input"), number = document.createElement("span");
    entry.dataset.state = state;
    number.textContent = state;
    Object.assign(ink, { type: "color", value: `#${color.map(HEX).join("")}`, ariaLabel: `color of state ${state}` });
    Object.assign(field, { type: "text", value: name, name: `name-of-state-${state}`, placeholder: "no name",
      autocomplete: "off", maxLength: 60, ariaLabel: `name of state ${state}` });
    const take = () => this.take(state, ink.value, field);
    ink.addEventListener("input", take);
    field.addEventListener("change", take);
    entry.append(number, ink, field);
    return entry;
  }

  take(state, ink, field) {
    const { ruleText } = this, name = field.value.trim(), isName = name === "" || /^[^\s\d#]/.test(name);
    mark(field, isName ? "" : "A name doesn't begin with a digit.");
    if (!isName || ruleText.draft === null) return;
    const color = [1, 3, 5].map((it) => parseInt(ink.slice(it, it + 2), 16));
    ruleText.edit(withColor(ruleText.draft, state, color, name));
  }
}

// A rule's text in which a state has a color and a name, where that isn't empty.
export function withColor(text, state, color, name) {
  const lines = text.split("\n"), first = lines.findIndex((it) => /^\s*@COLORS\b/.test(it));
  const said = [state, ...color].join(" ") + (name ? ` ${name}` : "");
  if (first < 0) return `${text.replace(/\n*$/, "\n")}\n@COLORS\n${said}\n`;
  let end = lines.findIndex((it, place) => place > first && /^\s*@/.test(it));
  if (end < 0) end = lines.length;
  const isOf = new RegExp(`^\\s*0*${state}(\\s+\\d+){3}(?!\\d|\\s+\\d)`);
  for (let it = end - 1; it > first; it--) {
    if (!isOf.test(lines[it])) continue;
    lines[it] = said;
    return lines.join("\n");
  }
  while (end > first + 1 && !lines[end - 1].trim()) end--;
  lines.splice(end, 0, said);
  return lines.join("\n");
}
