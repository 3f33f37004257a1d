// A rectangle of cells as macrocell text: squares of squares, each distinct one once, whose middle is (0, 0).

export function macrocellOf({ x, y, w, h, states }, rule = "") {
  const lines = [], numbers = new Map(), right = x + BigInt(w), bottom = y + BigInt(h);
  const numberOf = (line) => {
    if (!numbers.has(line)) { lines.push(line); numbers.set(line, lines.length); }
    return numbers.get(line);
  };
  // The number of a square of a level with its corner at a place; 0 where it is empty, and a state at level 0.
  const square = (level, left, top) => {
    const side = 1n << BigInt(level), half = side / 2n;
    if (left >= right || top >= bottom || left + side <= x || top + side <= y) return 0;
    if (level === 0) return states[Number(top - y) * w + Number(left - x)];
    const kids = [[left, top], [left + half, top], [left, top + half], [left + half, top + half]];
    const found = kids.map(([at, up]) => square(level - 1, at, up));
    return found.some((it) => it) ? numberOf(`${level} ${found.join(" ")}`) : 0;
  };
  let level = 3;
  const isInside = () => {
    const half = 1n << BigInt(level - 1);
    return x >= -half && y >= -half && right <= half && bottom <= half;
  };
  while (!isInside()) level++;
  const half = 1n << BigInt(level - 1);
  if (!square(level, -half, -half)) lines.push(`${level} 0 0 0 0`);
  return `[M2] (desk)\n${rule ? `#R ${rule}\n` : ""}${lines.join("\n")}\n`;
}
