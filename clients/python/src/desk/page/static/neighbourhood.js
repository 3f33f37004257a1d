// A cell and its neighbours in the shape of a rule's neighbourhood, each with its state and what a line has for it.

import { cssColor } from "./colors.js";

// Where the nine cells lie that a rule may look at, in the order in which it is told them.
export const PLACES = [["c", 0, 0], ["n", 0, -1], ["ne", 1, -1], ["e", 1, 0], ["se", 1, 1], ["s", 0, 1], ["sw", -1, 1],
  ["w", -1, 0], ["nw", -1, -1]];

export function neighbourhood(rules, place, reason, around, words) {
  const node = document.createElement("div"), isHexagonal = reason.shape === "hexagonal";
  node.className = isHexagonal ? "around hexagonal" : "around";
  node.setAttribute("role", "list");
  node.setAttribute("aria-label", words);
  PLACES.forEach(([name, x, y], it) => {
    if (!reason.places.includes(name)) return;
    const cell = tile(rules, place, name, around[it], entryAt(reason, name));
    // Two columns a cell, since the rows of hexagons are shifted by half of one.
    cell.style.gridArea = `${y + 2} / ${2 * x + 3 - (isHexagonal ? y : 0)} / auto / span 2`;
    node.append(cell);
  });
  return node;
}

// The entry of the line that decides which a cell is put to, or null where there is none.
function entryAt({ kind, entries, neighbours, map }, name) {
  if (kind !== "line") return null;
  return name === "c" ? entries[0] : entries[1 + map.entries[neighbours.indexOf(name)]];
}

function tile(rules, place, name, state, entry) {
  const node = document.createElement("div"), side = document.createElement("small");
  const color = rules.of(place).colors[state];
  const words = `${name}: ${rules.stateName(state, place)}${entry === null ? "" : `; the line has ${entry}`}`;
  node.setAttribute("role", "listitem");
  node.setAttribute("aria-label", words);
  node.title = words;
  node.dataset.place = name;
  node.style.background = cssColor(color);
  node.style.color = isLight(color) ? "#000" : "#fff";
  side.textContent = entry === null ? name : `${name}: ${entry}`;
  node.append(`${state}`, side);
  return node;
}

// Whether black is read better on a color than white.
function isLight(color) {
  const [red, green, blue] = color.map((it) => ((it / 255 + 0.055) / 1.055) ** 2.4);
  return 0.2126 * red + 0.7152 * green + 0.0722 * blue > 0.18;
}
