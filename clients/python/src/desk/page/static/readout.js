// The cell that the pointer is over, or that the keyboard chose, with its state at the place that is shown now.

export class Readout {
  constructor(app, pane, node) { Object.assign(this, { app, pane, node, pixel: null }); }

  // The pointer's pixel; the cell below it changes when the picture is moved. With null the pointer is elsewhere.
  follow(pixel) {
    this.pixel = pixel;
    this.draw();
  }

  get cell() {
    const { w, h } = this.pane.size;
    if (this.pixel) return this.app.camera.cellAt(this.pixel.x, this.pixel.y, w, h);
    return this.pane.hasKeys ? this.pane.cursor : null;
  }

  words(cell) {
    const state = this.pane.isUnsure(cell) ? null : this.app.frames.stateAt(this.pane.place, cell);
    return `(${cell.x}, ${cell.y}): ${state ?? "pending"}`;
  }

  draw() {
    const { cell } = this, words = cell ? this.words(cell) : "";
    if (this.node.textContent !== words) this.node.textContent = words;
    this.node.classList.toggle("pending", words.endsWith("pending"));
    if (cell) this.node.title = "";
  }
}
