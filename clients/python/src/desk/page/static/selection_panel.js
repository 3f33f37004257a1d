// The buttons for what is selected, or held over the picture, each with its key.

const STEPS = { ArrowLeft: [-1, 0], ArrowRight: [1, 0], ArrowUp: [0, -1], ArrowDown: [0, 1] };

export class SelectionPanel {
  constructor(app, node) {
    this.app = app;
    const row = node.querySelector(".row");
    for (const { words, key, title, act } of this.actions()) {
      const button = document.createElement("button");
      button.textContent = words;
      button.title = `${title} (${key})`;
      button.setAttribute("aria-label", title);
      button.addEventListener("click", () => this.act(act));
      row.append(button);
    }
  }

  act(what) { this.app.try(what); }

  actions() {
    const { app } = this, { clipboard, ghost, selection } = app, held = () => ghost.pattern ? ghost : selection;
    const action = (words, key, title, act) => ({ words, key, title, act });
    return [
      action("Copy", "Ctrl C", "Copy as RLE", () => clipboard.copy()),
      action("Cut", "Ctrl X", "Cut as RLE", () => clipboard.copy(true)),
      action("↻", "}", "Rotate clockwise", () => held().turn(true)),
      action("↺", "{", "Rotate counterclockwise", () => held().turn(false)),
      action("⇋", "|", "Flip left and right", () => held().mirror(true)),
      action("⇅", "_", "Flip top and bottom", () => held().mirror(false)),
      action("Fill", "Enter", "Fill with the chosen state", () => selection.fill()),
      action("Random", "%", "Fill at random", () => selection.random()),
      action("Clear", "Delete", "Clear inside", () => selection.clearInside()),
      action("Clear outside", "Shift Delete", "Clear outside", () => selection.clearOutside()),
    ];
  }

  // Does what a key says, while something is selected or held. Whether it is such a key.
  key(event) {
    const { ghost, selection } = this.app, step = STEPS[event.key];
    if (!ghost.pattern && !selection.box || event.ctrlKey || event.metaKey || event.altKey) return false;
    const held = ghost.pattern ? ghost : selection, does = {
      "}": () => held.turn(true), "{": () => held.turn(false), "|": () => held.mirror(true),
      "_": () => held.mirror(false), "%": () => selection.random(),
      Enter: () => ghost.pattern ? ghost.place(event.shiftKey) : selection.fill(),
      Delete: () => event.shiftKey ? selection.clearOutside() : selection.clearInside(),
      Escape: () => ghost.pattern ? ghost.drop() : selection.set(null),
    }, what = step ? () => this.move(step, event.shiftKey ? 10 : 1) : does[event.key];
    if (!what) return false;
    this.act(what);
    return true;
  }

  // Arrows move what is held; a selection is taken up by the first of them.
  async move([dx, dy], by) {
    const { ghost, selection } = this.app;
    if (!ghost.pattern) await selection.lift();
    ghost.move(dx * by, dy * by);
  }
}
