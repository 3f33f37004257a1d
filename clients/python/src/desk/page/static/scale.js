// Generations as places on a line: linear up to `near`, and by powers of two from there to `far`.

export const FARTHEST = 1n << 60n;

export class Scale {
  // near and far are numbers; left and right are where 0 and far lie.
  constructor(left, right, near, far) {
    Object.assign(this, { left, right, near: Math.min(near, far), far });
    this.seam = far > near ? left + (right - left) * 0.5 : right;
  }

  at(generation) {
    const it = Number(generation);
    if (it <= this.near) return this.left + (this.seam - this.left) * it / this.near;
    const share = Math.log2(it / this.near) / Math.log2(this.far / this.near);
    return this.seam + (this.right - this.seam) * Math.min(1.02, share);
  }

  // The generation at a place, as a number.
  raw(x) {
    if (x <= this.seam) return Math.max(0, this.near * (x - this.left) / (this.seam - this.left));
    const share = Math.min(1, (x - this.seam) / (this.right - this.seam));
    return this.near * 2 ** (share * Math.log2(this.far / this.near));
  }

  // The roundest generation within a pixel or so.
  back(x) {
    const low = Math.ceil(this.raw(x - 1.5)), high = Math.floor(this.raw(x + 1.5)), middle = this.raw(x);
    if (high <= low) return clamped(BigInt(Math.round(middle)));
    for (let power = 10 ** 18; power > 1; power /= 10) {
      const it = Math.round(middle / power) * power;
      if (it >= low && it <= high && it > 0) return clamped(BigInt(it));
    }
    const power = 2 ** Math.round(Math.log2(Math.max(1, middle)));
    return clamped(BigInt(power >= low && power <= high ? power : Math.round(middle)));
  }

  // Places of the axis, each with its words.
  ticks() {
    const found = [], step = niceStep(this.near * 70 / Math.max(1, this.seam - this.left));
    for (let it = 0; it < this.near; it += step) {
      if (it === 0 || this.at(it) < this.seam - 34) found.push({ x: this.at(it), words: spelled(BigInt(it)) });
    }
    if (this.far > this.near) {
      const first = Math.ceil(Math.log2(this.near)), last = Math.floor(Math.log2(this.far));
      const every = Math.max(1, Math.ceil((last - first) * 46 / Math.max(1, this.right - this.seam)));
      for (let it = first; it <= last; it += every) found.push({ x: this.at(2 ** it), words: power(it) });
    } else {
      found.push({ x: this.right, words: spelled(BigInt(this.far)) });
    }
    return found;
  }
}

const power = (it) => it < 14 ? spelled(1n << BigInt(it)) : `2^${it}`;
const clamped = (it) => it < 0n ? 0n : it > FARTHEST ? FARTHEST : it;

function niceStep(least) {
  let step = 1;
  for (;;) {
    for (const it of [1, 2, 5]) if (it * step >= least) return it * step;
    step *= 10;
  }
}

// A generation in words: with commas, and as a power of two where it is a large one.
export function spelled(generation) {
  const bits = generation.toString(2);
  if (bits.length > 20 && !bits.slice(1).includes("1")) return `2^${bits.length - 1}`;
  return generation.toString().replace(/\B(?=(\d{3})+$)/g, ",");
}

// Coordinates that a user wrote: two numbers, of which each may have a sign; null for anything else.
export function readCell(words) {
  const parts = words.trim().split(/\s*,\s*|\s+/), found = parts.map((it) => {
    const size = read(it.replace(/^[-+]/, ""));
    return size === null ? null : it.startsWith("-") ? -size : size;
  });
  return found.length === 2 && !found.includes(null) ? found : null;
}

// What a user wrote: digits, with commas or spaces, or a power as 2^60, or 1e6; null for anything else.
export function read(words) {
  const it = words.replace(/[\s,_]/g, "");
  let found = null;
  if (/^\d{1,20}$/.test(it)) found = BigInt(it);
  else if (/^\d+\^\d{1,2}$/.test(it)) { const [base, up] = it.split("^"); found = BigInt(base) ** BigInt(up); }
  else if (/^\d+e\d{1,2}$/.test(it)) { const [base, up] = it.split("e"); found = BigInt(base) * 10n ** BigInt(up); }
  return found;
}
