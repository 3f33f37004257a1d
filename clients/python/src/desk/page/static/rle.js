// Patterns of a rectangle of cells as run length encoded text, as Golly and the desk have it.

const LINE = 70;

// The text of a rectangle { x, y, w, h, states }, with its place.
export function rleOf({ x, y, w, h, states }, rule = "") {
  const head = `#CXRLE Pos=${x},${y}\nx = ${w}, y = ${h}${rule ? `, rule = ${rule}` : ""}\n`;
  const isTwo = states.every((it) => it < 2), sign = isTwo ? (it) => "bo"[it] : letters;
  const parts = [];
  let ends = 0;  // rows that ended since the last cells
  for (let row = 0; row < h; row++) {
    for (const [state, count] of runs(states, row * w, w)) {
      if (ends) parts.push(counted(ends, "$"));
      ends = 0;
      parts.push(counted(count, sign(state)));
    }
    ends++;
  }
  return `${head}${folded([...parts, "!"])}\n`;
}

// The runs of a row, without the empty one at its end.
function runs(states, from, w) {
  const found = [];
  for (let at = from; at < from + w; at++) {
    const last = found.at(-1);
    if (last && last[0] === states[at]) last[1]++;
    else found.push([states[at], 1]);
  }
  if (found.at(-1)?.[0] === 0) found.pop();
  return found;
}

function letters(state) {
  if (state === 0) return ".";
  const prefix = Math.floor((state - 1) / 24);
  return (prefix ? String.fromCharCode(111 + prefix) : "") + String.fromCharCode(65 + (state - 1) % 24);
}

const counted = (count, sign) => count > 1 ? `${count}${sign}` : sign;

function folded(parts) {
  const lines = [""];
  for (const part of parts) {
    if (lines.at(-1).length + part.length > LINE) lines.push("");
    lines[lines.length - 1] += part;
  }
  return lines.join("\n");
}

const MOST_AREA = 1 << 22, TOKEN = /\s*(\d*)(?:([p-y]?)([A-X])|([bo.$!]))/y;

// The rectangle of a text, or an Error that says what is wrong with it.
export function readRle(text) {
  const lines = text.split(/\r?\n/), head = lines.findIndex((it) => /^\s*x\s*=/.test(it));
  const body = lines.slice(head + 1).filter((it) => !it.startsWith("#")).join("\n"), cells = cellsOf(body);
  const most = (axis) => cells.reduce((found, it) => Math.max(found, it[axis] + 1), 1);
  const [, width, height] = /^\s*x\s*=\s*(\d+)\s*,\s*y\s*=\s*(\d+)/.exec(lines[head] ?? "") ?? [];
  const w = Math.max(most(0), Number(width ?? 0)), h = Math.max(most(1), Number(height ?? 0));
  if (!(w * h <= MOST_AREA)) throw new Error(`it is ${w} by ${h} cells, which is too large to place`);
  const states = new Uint8Array(w * h);
  for (const [x, y, state] of cells) states[y * w + x] = state;
  return { w, h, states };
}

// The live cells of a body: columns, rows and states.
function cellsOf(body) {
  const found = [];
  let x = 0, y = 0;
  TOKEN.lastIndex = 0;
  for (;;) {
    const at = TOKEN.lastIndex, it = TOKEN.exec(body);
    if (!it) throw new Error(`it is no pattern as RLE: ${JSON.stringify(body.slice(at, at + 12))} can't be read`);
    const count = Number(it[1] || 1), sign = it[4];
    if (sign === "!") return found;
    if (sign === "$") { y += count; x = 0; continue; }
    const prefix = it[2] ? it[2].charCodeAt(0) - 111 : 0;
    const state = it[3] ? 24 * prefix + it[3].charCodeAt(0) - 64 : Number(sign === "o");
    if (x + count > MOST_AREA || y > MOST_AREA) throw new Error("it is too large to place");
    if (state > 255) throw new Error(`it has the state ${state}, and there are states up to 255`);
    for (let step = 0; state && step < count; step++) found.push([x + step, y, state]);
    x += count;
  }
}
