// Which lines of a text stand in another one too.

const MOST = 4000000;  // pairs of lines that are compared one by one

// For each line of a text the place of the same line in an older text, both from 0, or -1 where it isn't there.
export function placesIn(old, now) {
  const found = new Int32Array(now.length).fill(-1), most = Math.min(old.length, now.length);
  let head = 0, tail = 0;
  while (head < most && old[head] === now[head]) { found[head] = head; head++; }
  while (tail < most - head && old.at(-1 - tail) === now.at(-1 - tail)) {
    found[now.length - 1 - tail] = old.length - 1 - tail;
    tail++;
  }
  const before = old.slice(head, old.length - tail), after = now.slice(head, now.length - tail);
  if (before.length * after.length <= MOST) {
    for (const [one, other] of common(before, after)) found[head + other] = head + one;
  }
  return found;
}

// The pairs of places of a longest common part.
function common(one, other) {
  const width = other.length + 1, longest = new Uint32Array((one.length + 1) * width), pairs = [];
  for (let i = one.length - 1; i >= 0; i--) {
    for (let j = other.length - 1; j >= 0; j--) {
      const down = longest[(i + 1) * width + j], right = longest[i * width + j + 1];
      longest[i * width + j] = one[i] === other[j] ? longest[(i + 1) * width + j + 1] + 1 : Math.max(down, right);
    }
  }
  for (let i = 0, j = 0; i < one.length && j < other.length;) {
    if (one[i] === other[j]) pairs.push([i++, j++]);
    else if (longest[(i + 1) * width + j] >= longest[i * width + j + 1]) i++;
    else j++;
  }
  return pairs;
}
