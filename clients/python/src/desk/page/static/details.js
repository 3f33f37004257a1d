// What is selected, with what can be done to it.

import { mark } from "./fields.js";
import { lookAt } from "./frames.js";
import { FARTHEST, read, spelled } from "./scale.js";

const MOST_WORDS = 4000, NUMBER = "A number such as 1000, 1e6 or 2^60.";

export class Details {
  constructor(app, node) { Object.assign(this, { app, node, key: "", output: null }); }

  // The text of a selected bookmark is looked at too.
  looks() {
    const it = this.bookmark();
    return it ? [lookAt(this.placeOf(it), it.view)] : [];
  }

  // Its text is shown under the rule of the active picture.
  placeOf({ branch, generation }) {
    return { branch, generation: BigInt(generation), rule: this.app.pane.rule };
  }

  bookmark() {
    const { selected } = this.app;
    return selected?.kind === "bookmarks" ? this.app.entry("bookmarks", selected.id) : null;
  }

  draw() {
    const { app } = this, { selected, state } = app;
    const wantsRetry = [state, state.second].some((it) => it?.isLost || it?.cause);
    const isThere = selected && (selected.id || selected.kind !== "branches");
    const entry = isThere ? app.entry(selected.kind, selected.id) : selected && { id: 0 };
    const key = JSON.stringify([selected, entry, wantsRetry, state.second && app.pane.side.ruleName]);
    if (key !== this.key) {
      this.key = key;
      this.output = null;
      this.node.replaceChildren(...wantsRetry ? [this.button("Try again", () => app.ask("retry"), "retry")] : []);
      this.drawEntry(entry, selected);
    }
    if (this.output) this.tell(this.text());
  }

  drawEntry(entry, selected) {
    if (!entry) {
      this.node.append(heading("Nothing selected on the timeline"), line("Click a lane to look at a generation of " +
        "it, double-click it to add a bookmark, drag flags and ticks to move them."));
    } else if (selected.kind === "bookmarks") this.drawBookmark(entry);
    else if (selected.kind === "interventions") this.drawIntervention(entry);
    else this.drawBranch(entry);
  }

  tell(text) {
    if (this.output.textContent === text) return;
    this.output.textContent = text;
    this.output.classList.toggle("pending", text.startsWith("pending"));
  }

  text() {
    const it = this.bookmark();
    const frame = this.app.frames.get(this.placeOf(it), it.view);
    if (!frame) return `pending: ${this.app.status.why(this.app.pane.side)}`;
    if (frame.refused) return `not shown: ${frame.refused.words}`;
    if (frame.squares) return `${frame.squares.count - 1} squares of macrocell text`;
    if (frame.states) return `${frame.states.reduce((sum, state) => sum + (state > 0), 0)} live cells in the window`;
    return frame.text.length > MOST_WORDS ? `${frame.text.slice(0, MOST_WORDS)}...` : frame.text;
  }

  drawBookmark(it) {
    const generation = field("generation", spelled(BigInt(it.generation)));
    this.output = document.createElement("pre");
    this.output.tabIndex = 0;
    this.output.setAttribute("aria-label", "what the bookmark shows");
    const move = this.button("Move", () => {
      const [to] = numbers(generation);
      if (to !== undefined) this.app.edits.move("bookmarks", it.id, to);
    });
    const remove = this.button("Remove", () => this.app.edits.remove("bookmarks", it.id));
    const under = this.app.state.second ? `, under ${this.app.pane.side.ruleName}` : "";
    this.node.append(heading(`Bookmark ${it.id}: ${it.view.split(" ")[0]}`), line(`branch ${it.branch}${under}`),
      generation.label, row(move, remove), this.output);
  }

  drawIntervention(it) {
    const isOnce = it.distance === "0", isToTheEnd = BigInt(it.last) === FARTHEST;
    const first = field("generation", spelled(BigInt(it.first)));
    const distance = field("again every", isOnce ? "" : it.distance, "once");
    const last = field("up to", isOnce || isToTheEnd ? "" : spelled(BigInt(it.last)), isOnce ? "once" : "the end");
    distance.input.addEventListener("input", () => {
      last.input.placeholder = distance.input.value ? "the end" : "once";
    });
    const change = () => {
      const found = numbers(first, distance, last);
      if (!found.length) return;
      const [from, by] = found, to = by && last.input.value === "" ? FARTHEST : found[2];
      this.app.ask("change", { id: it.id, first: `${from}`, distance: `${by}`, last: `${to}` });
    };
    this.node.append(heading(`Intervention ${it.id}: ${it.cells} cell${it.cells === 1 ? "" : "s"}`),
      line(`branch ${it.branch}`), first.label, distance.label, last.label,
      row(this.button("Change", change), this.button("Remove", () => this.app.edits.remove("interventions", it.id))));
  }

  drawBranch(it) {
    this.node.append(heading(`Branch ${it.id}`));
    if (!it.id) return this.node.append(line("It begins with the start."));
    this.node.append(line(`leaves branch ${it.parent} at generation ${spelled(BigInt(it.generation))}`),
      row(this.button("Remove, with all that is on it", () => this.app.edits.remove("branches", it.id))));
  }

  button(words, what, kind = "") {
    const node = document.createElement("button");
    node.textContent = words;
    node.className = kind;
    node.addEventListener("click", what);
    return node;
  }
}

// The numbers of fields, of which an empty one is 0; none where one is wrong, which is marked.
function numbers(...fields) {
  const found = fields.map(({ input }, place) => input.value === "" && place ? 0n : read(input.value));
  fields.forEach(({ input }, place) => mark(input, found[place] === null ? NUMBER : ""));
  return found.includes(null) ? [] : found;
}

function row(...kids) {
  const node = document.createElement("div");
  node.className = "row";
  node.append(...kids);
  return node;
}

function heading(words) {
  const node = document.createElement("h2");
  node.textContent = words;
  return node;
}

function line(words) {
  const node = document.createElement("p");
  node.textContent = words;
  return node;
}

function field(words, value, placeholder = "") {
  const label = document.createElement("label"), input = document.createElement("input");
  Object.assign(input, { value, placeholder, autocomplete: "off", name: words.replaceAll(" ", "-") });
  label.append(words, input);
  return { label, input };
}
