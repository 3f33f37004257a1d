// A rectangle of cells: { w, h, states }, row after row; how it is turned, mirrored, and laid on the plane.

export const MOST_LIVE = 100000;

// The rectangle turned by a quarter.
export function turned({ w, h, states }, isClockwise) {
  const found = new Uint8Array(w * h);
  for (let y = 0; y < h; y++) {
    for (let x = 0; x < w; x++) {
      const at = isClockwise ? x * h + h - 1 - y : (w - 1 - x) * h + y;
      found[at] = states[y * w + x];
    }
  }
  return { w: h, h: w, states: found };
}

// The rectangle mirrored: left and right are exchanged, or top and bottom.
export function mirrored({ w, h, states }, isAcross) {
  const found = new Uint8Array(w * h);
  for (let y = 0; y < h; y++) {
    for (let x = 0; x < w; x++) {
      found[isAcross ? y * w + w - 1 - x : (h - 1 - y) * w + x] = states[y * w + x];
    }
  }
  return { w, h, states: found };
}

export const key = (x, y) => `${x} ${y}`;

// Cells to paint: those of a rectangle that lies at a place, and only the live ones where `hasEmpty` is false.
export function cellsOf({ w, h, states }, { x, y }, hasEmpty = false) {
  const found = new Map();
  for (let it = 0; it < w * h; it++) {
    const state = states[it];
    if (state || hasEmpty) found.set(key(x + BigInt(it % w), y + BigInt(Math.floor(it / w))), state);
  }
  return found;
}

// The same cells, all in one state.
export const inState = (cells, state) => new Map([...cells.keys()].map((it) => [it, state]));

// Where a rectangle lies that is turned about its middle.
export function cornerTurned({ x, y, w, h }) {
  const by = BigInt(Math.floor((w - h) / 2));
  return { x: x + by, y: y - by };
}
