// A macrocell text of the desk: its distinct squares, and drawing them at any scale.

export class Squares {
  constructor(text) {
    const most = text.length / 10 + 2 | 0;
    this.levels = new Uint8Array(most);
    this.kids = new Uint32Array(4 * most);
    this.live = new Float64Array(most);
    this.ink = new Uint8Array(most);
    this.count = 1;
    this.read(text);
    this.level = this.levels[this.count - 1];
  }

  read(text) {
    let place = 0;
    while (place < text.length) {
      let end = text.indexOf("\n", place);
      if (end < 0) end = text.length;
      const first = text.charCodeAt(place);
      if (first >= 48 && first <= 57) this.row(text, place, end);
      place = end + 1;
    }
  }

  row(text, place, end) {
    const row = this.count++, numbers = [0, 0, 0, 0, 0];
    for (let which = 0; place <= end; place++) {
      const it = place < end ? text.charCodeAt(place) - 48 : -1;
      if (it >= 0 && it <= 9) numbers[which] = numbers[which] * 10 + it;
      else which++;
    }
    const isCells = numbers[0] === 1;
    this.levels[row] = numbers[0];
    let most = 0;
    for (let kid = 0; kid < 4; kid++) {
      const it = numbers[kid + 1], live = isCells ? Math.min(it, 1) : this.live[it];
      this.kids[4 * row + kid] = it;
      this.live[row] += live;
      if (live > most) { most = live; this.ink[row] = isCells ? it : this.ink[it]; }
    }
  }

  // What a kid of a square of some level shows as one pixel.
  inkOf(level, it) { return level ? this.ink[it] : it; }

  // The bounding box in cells, as BigInt, or null where nothing is live.
  box() {
    const root = this.count - 1;
    if (root < 1 || !this.live[root]) return null;
    const corner = -(1n << BigInt(this.level)) / 2n;
    const edge = (axis, isFar) => {
      const memo = new Map();
      const of = (level, it) => {
        if (level === 0) return 0n;
        if (memo.has(it)) return memo.get(it);
        const half = 1n << BigInt(level - 1);
        let best = null;
        for (let kid = 0; kid < 4; kid++) {
          const child = this.kids[4 * it + kid];
          if (!child || (level > 1 && !this.live[child])) continue;
          const far = (axis === 0 ? kid & 1 : kid >> 1) ? half : 0n, found = far + of(level - 1, child);
          if (best === null || (isFar ? found > best : found < best)) best = found;
        }
        memo.set(it, best ?? 0n);
        return best ?? 0n;
      };
      return corner + of(this.level, root);
    };
    const x = edge(0, false), y = edge(1, false);
    return { x, y, w: edge(0, true) - x + 1n, h: edge(1, true) - y + 1n };
  }

  // The state of a cell.
  stateAt(x, y) {
    const half = (1n << BigInt(this.level)) / 2n;
    if (this.count < 2 || x < -half || y < -half || x >= half || y >= half) return 0;
    let row = this.count - 1, left = x + half, top = y + half;
    for (let level = this.level; row && level > 0; level--) {
      const side = 1n << BigInt(level - 1), isRight = left >= side, isLow = top >= side;
      row = this.kids[4 * row + (isRight ? 1 : 0) + (isLow ? 2 : 0)];
      if (isRight) left -= side;
      if (isLow) top -= side;
    }
    return row;
  }

  // Each live cell, as its place and its state.
  * liveCells() {
    const half = (1n << BigInt(this.level)) / 2n;
    if (this.count > 1) yield* this.liveIn(this.level, this.count - 1, -half, -half);
  }

  * liveIn(level, row, x, y) {
    if (!row || level && !this.live[row]) return;
    if (!level) { yield [x, y, row]; return; }
    const half = 1n << BigInt(level - 1);
    for (let kid = 0; kid < 4; kid++) {
      const right = kid & 1 ? half : 0n, low = kid >> 1 ? half : 0n;
      yield* this.liveIn(level - 1, this.kids[4 * row + kid], x + right, y + low);
    }
  }

  // Calls put(column, row, state) for each pixel that shows a live cell; a pixel is 2^up cells a side,
  // and the first one has the cell (x, y) at its left and top.
  draw(x, y, up, w, h, put) {
    if (this.count < 2 || !this.live[this.count - 1]) return;
    const half = (1n << BigInt(this.level)) / 2n, root = this.count - 1;
    for (let kid = 0; kid < 4; kid++) {  // each quadrant lies in one pixel, or in whole ones; the root may not
      const left = kid & 1 ? 0n : -half, top = kid >> 1 ? 0n : -half;
      this.drawFar(this.level - 1, this.kids[4 * root + kid], left - x, top - y, up, w, h, put);
    }
  }

  // Far out places are too large for numbers.
  drawFar(level, it, x, y, up, w, h, put) {
    if (!it) return;
    if (level <= 40 || level <= up) {
      const scale = 1n << BigInt(up);
      const column = floorDivision(x, scale), row = floorDivision(y, scale), most = 1n << 52n;
      if (column > most || row > most || -column > most || -row > most) return;
      this.drawNear(level, it, Number(column), Number(row), up, w, h, put);
      return;
    }
    const half = 1n << BigInt(level - 1), side = half * 2n, scale = 1n << BigInt(up);
    if (x + side <= 0n || y + side <= 0n || x >= BigInt(w) * scale || y >= BigInt(h) * scale) return;
    for (let kid = 0; kid < 4; kid++) {
      this.drawFar(level - 1, this.kids[4 * it + kid], x + (kid & 1 ? half : 0n), y + (kid >> 1 ? half : 0n),
        up, w, h, put);
    }
  }

  drawNear(level, it, column, row, up, w, h, put) {
    if (!it) return;
    if (level <= up) {
      if (column >= 0 && row >= 0 && column < w && row < h) {
        const ink = this.inkOf(level, it);
        if (ink) put(column, row, ink);
      }
      return;
    }
    const side = 2 ** (level - up);
    if (column >= w || row >= h || column + side <= 0 || row + side <= 0) return;
    for (let kid = 0; kid < 4; kid++) {
      this.drawNear(level - 1, this.kids[4 * it + kid], column + (kid & 1 ? side / 2 : 0),
        row + (kid >> 1 ? side / 2 : 0), up, w, h, put);
    }
  }
}

export function floorDivision(a, b) {
  const it = a / b;
  return it * b > a ? it - 1n : it;
}
