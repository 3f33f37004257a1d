// Where all panes look: the cell in the middle, and the power of two of pixels a cell.

import { floorDivision } from "./squares.js";

export const LARGEST = 5, SMALLEST = -60;

export class Camera {
  constructor() { Object.assign(this, { x: 0n, y: 0n, zoom: 3 }); }

  // The cell at the left and top of a canvas, of whose pixels each may stand for many cells.
  corner(w, h) {
    if (this.zoom >= 0) {
      const side = 2 ** this.zoom;
      return { x: this.x - BigInt(Math.floor(w / side / 2)), y: this.y - BigInt(Math.floor(h / side / 2)) };
    }
    const side = 1n << BigInt(-this.zoom);
    const at = (it, pixels) => (floorDivision(it, side) - BigInt(pixels >> 1)) * side;
    return { x: at(this.x, w), y: at(this.y, h) };
  }

  cells(pixels) {
    if (this.zoom >= 0) return BigInt(Math.round(pixels / 2 ** this.zoom));
    return BigInt(Math.round(pixels)) << BigInt(-this.zoom);
  }

  cellAt(px, py, w, h) {
    const corner = this.corner(w, h);
    if (this.zoom >= 0) {
      const side = 2 ** this.zoom;
      return { x: corner.x + BigInt(Math.floor(px / side)), y: corner.y + BigInt(Math.floor(py / side)) };
    }
    const cells = (pixels) => BigInt(Math.floor(pixels)) << BigInt(-this.zoom);
    return { x: corner.x + cells(px), y: corner.y + cells(py) };
  }

  // Zooms about a pixel, which keeps its cell.
  zoomTo(zoom, px, py, w, h) {
    const before = this.cellAt(px, py, w, h);
    this.zoom = Math.max(SMALLEST, Math.min(LARGEST, zoom));
    const after = this.cellAt(px, py, w, h);
    this.x += before.x - after.x;
    this.y += before.y - after.y;
  }

  fit(box, w, h) {
    this.x = box.x + box.w / 2n;
    this.y = box.y + box.h / 2n;
    this.zoom = 4;
    while (this.zoom > SMALLEST && (this.size(box.w) > w * 0.94 || this.size(box.h) > h * 0.94)) this.zoom--;
  }

  size(cells) { return this.zoom >= 0 ? Number(cells) * 2 ** this.zoom : Number(cells >> BigInt(-this.zoom)); }
}
