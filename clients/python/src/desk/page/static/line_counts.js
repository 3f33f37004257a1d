// Which lines of the rule fire over a range of generations: counts in the editor's gutter, lines that never did or
// never can, and the neighbourhoods that no line matches. All of it is of one text and one experiment, and goes with
// them.

import { mark } from "./fields.js";
import { read, spelled } from "./scale.js";

const MOST_LINES = 24, DEFAULT_STEPS = 100n;

export class LineCounts {
  constructor(app, node) {
    Object.assign(this, { app, node, run: null, isRunning: false, marked: null });
    [this.first, this.last, this.every] = node.querySelectorAll("input");
    this.button = node.querySelector("button");
    this.output = node.querySelector("output");
    this.found = node.querySelector(".found");
    this.button.addEventListener("click", () => this.toggle());
    for (const it of [this.first, this.last, this.every]) it.addEventListener("input", () => mark(it, ""));
  }

  async open() {
    await this.app.ruleText.show();
    this.node.open = true;
    this.first.focus();
  }

  // Begins to count, or cancels what was begun.
  async toggle() {
    if (this.isRunning) return this.cancel();
    const asked = this.asked();
    if (!asked) return;
    const { app } = this, { branch } = app.pane;
    this.run = { ...asked, branch, epoch: app.state.epoch, ruleId: app.state.ruleId, done: 0, of: 0, counts: {} };
    this.isRunning = true;
    this.tell("Reading the rule.");
    const reply = await app.link.ask("count_lines", { branch, ...asked });
    if (reply.refused) this.stop(`Not counted: ${reply.refused.words}.`);
    else if (this.run) this.run.of = reply.of;
    app.changed();
  }

  // What is asked for, or undefined where a number is wrong, which is marked.
  asked() {
    const { pane } = this.app, fork = this.app.forkOf(pane.branch);
    const first = this.first.value ? read(this.first.value) : fork;
    const ahead = first === null || pane.generation > first ? pane.generation : first + DEFAULT_STEPS;
    const last = this.last.value ? read(this.last.value) : ahead, every = read(this.every.value || "1");
    mark(this.first, first === null ? "A generation such as 0 or 1e3." : "");
    mark(this.last, last === null ? "A generation such as 1000." : "");
    mark(this.every, every ? "" : "A number such as 1 or 10.");
    if (first === null || last === null || !every) return undefined;
    return { first: `${first}`, last: `${last}`, every: `${every}` };
  }

  cancel() {
    this.app.link.ask("end_count");
    if (!this.run.lines) return this.stop("The count was cancelled.");
    this.isRunning = false;
    this.run.isEnded = this.run.isCancelled = true;
    this.show();
    this.app.changed();
  }

  // Ends without anything to show.
  stop(words) {
    Object.assign(this, { run: null, isRunning: false });
    this.show();
    this.tell(words);
    this.app.changed();
  }

  // What the server tells.
  take(message) {
    const { run } = this;
    if (!this.isRunning || message.epoch !== run.epoch || message.ruleId !== run.ruleId) return;
    Object.assign(run, message);
    if (message.isEnded) this.isRunning = false;
    if (message.isEnded && !run.lines) return this.stop(`Not counted: ${message.fault}.`);
    this.show();
    if (message.lines) this.app.ruleText.reveal(message.lines[0]);
    this.app.changed();
  }

  // Whether what is shown is of the text and the branch that are in sight.
  get isHere() { return this.run.branch === this.app.pane.branch && !this.app.ruleText.isChanged; }

  draw() {
    const { run, app } = this, { state } = app;
    if (run && (run.epoch !== state.epoch || run.ruleId !== state.ruleId)) {
      if (this.isRunning) app.link.ask("end_count");
      this.stop("The experiment has changed: count again.");
    }
    const isHere = !this.run || this.isHere;
    if (isHere !== this.wasHere) { this.wasHere = isHere; this.show(); }
    this.button.textContent = this.isRunning ? "Cancel" : "Count";
    this.output.classList.toggle("hatched", this.isRunning || !isHere);
    const fork = app.forkOf(app.pane.branch), from = this.first.value ? read(this.first.value) ?? fork : fork;
    this.first.placeholder = spelled(fork);
    this.last.placeholder = spelled(app.pane.generation > from ? app.pane.generation : from + DEFAULT_STEPS);
  }

  show() {
    const { run, app } = this, isHere = run && this.isHere, isShown = Boolean(isHere && run.lines);
    app.ruleText.setCounts(isShown ? this.marks() : null);
    this.found.replaceChildren(...isShown ? this.parts() : []);
    if (run?.lines) this.tell(isHere ? this.words() : `${this.words()} They aren't shown, since ${this.elsewhere()}.`);
  }

  elsewhere() {
    return this.app.ruleText.isChanged ? "the text was changed since" : "another branch is in sight";
  }

  // How far it is, and of which generations.
  words() {
    const { run } = this, every = run.every === "1" ? "" : `, one in ${spelled(BigInt(run.every))}`;
    const from = spelled(BigInt(run.first)), to = spelled(BigInt(run.last));
    const steps = `the steps from generation ${from} to ${to}${every}`;
    const of = `${run.done} of ${run.of}`;
    if (this.isRunning) return `counting ${steps}, branch ${run.branch}: ${of}`;
    if (run.isCancelled) return `Cancelled after ${of} of ${steps} in branch ${run.branch}.`;
    if (run.fault) return `Only ${of} of ${steps} in branch ${run.branch} are counted: ${run.fault}.`;
    return `Counted ${steps} in branch ${run.branch}.`;
  }

  // What the gutter has: a count for each line, and how lines without one are set apart.
  marks() {
    return new Map(this.run.lines.map((line) => [line, this.markOf(line)]));
  }

  markOf(line) {
    const { run } = this, count = run.counts[line] ?? 0, by = run.dead[line];
    const decided = `it decided for ${spelled(BigInt(count))} cells`;
    if (count) return { classes: ["fired"], count: short(count), title: decided };
    if (by) return { classes: ["dead"], count: "never", title: this.whyDead(line) };
    if (!run.isEnded) return { classes: [], count: "", title: "" };
    const isUnknown = run.unknown.includes(line), title = "it never fired in these generations";
    const more = isUnknown ? "; it takes too long to find out whether it ever can" : "";
    return { classes: ["idle"], count: isUnknown ? "0 ?" : "0", title: title + more };
  }

  whyDead(line) {
    const { isTable, dead } = this.run, by = dead[line];
    if (!isTable) return "for certain it can never be reached: no way from the root leads here";
    return `for certain it can never fire: line${by.length > 1 ? "s" : ""} ${by.join(", ")} take all that it matches`;
  }

  parts() {
    const { run } = this, dead = run.lines.filter((it) => run.dead[it]);
    const idle = run.lines.filter((it) => !run.counts[it] && !run.dead[it]);
    const parts = dead.length ? [this.list("dead", "Can never fire, for certain:", dead)] : [];
    if (!run.isEnded) return parts;
    if (idle.length) parts.push(this.list("idle", "Never fired in these steps:", idle));
    if (run.unmatched?.listed.length) parts.push(this.table());
    return parts;
  }

  // Lines as buttons that go there.
  list(name, words, lines) {
    const found = document.createElement("p");
    found.className = name;
    found.append(`${words} `);
    for (const line of lines.slice(0, MOST_LINES)) {
      const button = document.createElement("button");
      button.textContent = line;
      button.title = name === "dead" ? this.whyDead(line) : `Go to line ${line}`;
      button.setAttribute("aria-label", `Go to line ${line}`);
      button.addEventListener("click", () => this.app.ruleText.highlight([line]));
      found.append(button, " ");
    }
    if (lines.length > MOST_LINES) found.append(` and ${lines.length - MOST_LINES} more`);
    return found;
  }

  // What no line matches, the most frequent first.
  table() {
    const { places, unmatched, isSymmetric } = this.run, table = document.createElement("table");
    const same = isSymmetric ? "; of those that are the same by the symmetry one is listed" : "";
    table.createCaption().textContent = `No line matches, so the cell stays${same}:`;
    const head = table.createTHead().insertRow();
    for (const it of [...places, "cells"]) {
      const cell = document.createElement("th");
      cell.scope = "col";
      cell.textContent = it;
      head.append(cell);
    }
    const body = table.createTBody();
    for (const { inputs, cells } of unmatched.listed) {
      const row = body.insertRow();
      for (const it of [...inputs, spelled(BigInt(cells))]) row.insertCell().textContent = it;
    }
    if (unmatched.others) {
      const cell = body.insertRow().insertCell();
      cell.colSpan = places.length + 1;
      cell.textContent = `${spelled(BigInt(unmatched.cells))} cells in ${unmatched.others} other neighbourhoods`;
    }
    return table;
  }

  tell(words) { if (this.output.textContent !== words) this.output.textContent = words; }
}

// A number as a gutter has room for it.
function short(count) {
  if (count < 10000) return `${count}`;
  return count < 10000000 ? `${Math.floor(count / 1000)}k` : `${Math.floor(count / 1000000)}M`;
}
