// The panel that says why a cell is so: its neighbourhood at the generation before, and what decides.

import { neighbourhood } from "./neighbourhood.js";
import { spelled } from "./scale.js";

export class WhyPanel {
  constructor(app, node, close) {
    Object.assign(this, { app, node, told: "", lines: "[]" });
    const button = document.createElement("button"), head = document.createElement("div");
    this.heading = document.createElement("h2");
    this.body = document.createElement("div");
    button.textContent = "Close";
    button.setAttribute("aria-label", "Close why");
    button.addEventListener("click", close);
    head.className = "row";
    head.append(this.heading, button);
    node.append(head, this.body);
  }

  // Draws what is known, or hides the panel where there is nothing.
  draw(it) {
    const wasHidden = this.node.hidden, told = it ? this.key(it) : "";
    this.node.hidden = !it;
    if (told !== this.told) {
      this.told = told;
      this.highlight(it && !it.isPending && !it.place.rule ? linesOf(it.reason) : []);
      if (it) this.tell(it);
    }
    if (wasHidden && it) this.node.scrollIntoView({ block: "nearest" });
  }

  key(it) {
    const { cell, place, isPending } = it, { colors, names, ruleName } = this.app.rules.of(place);
    const pending = isPending && this.progress(place), words = this.placeWords(place);
    return JSON.stringify([{ ...it, cell: `${cell.x} ${cell.y}`, place: words }, colors, names, ruleName, pending]);
  }

  stateName(state, place) { return this.app.rules.stateName(state, place); }

  progress(place) { return this.app.status.progress(this.app.rules.of(place)); }

  placeWords(place) {
    const { branch, generation } = place, under = this.app.rules.words(place, "under ", ", ");
    return `${under}branch ${branch}, generation ${spelled(generation)}`;
  }

  // Marks the lines that decide in the text of the rule, where that is shown.
  highlight(lines) {
    if (JSON.stringify(lines) === this.lines) return;
    this.lines = JSON.stringify(lines);
    this.app.ruleText?.highlight(lines);
  }

  tell(it) {
    const { cell, place, shown, isPending } = it, state = shown === null ? "pending" : this.stateName(shown, place);
    this.heading.textContent = `Why (${cell.x}, ${cell.y}) is so`;
    this.body.style.minHeight = isPending ? `${this.body.offsetHeight}px` : "";
    this.body.classList.toggle("hatched", isPending);
    const parts = isPending ? [paragraph(`pending: ${this.progress(place)}`)] : this.parts(it);
    this.body.replaceChildren(paragraph(`${this.placeWords(place)}: ${state}`), ...parts);
  }

  parts(it) {
    const { origin, fault, reason, shown, place } = it;
    if (origin.kind === "start") return [said("It is so in the start.")];
    if (origin.kind === "intervention") return this.intervention(origin, place);
    if (fault) return [mistake(`Why can't be told: the reader of rules on this page can't read the rule. ${fault}`)];
    const parts = [...this.before(it), ...this.decision(it)];
    return reason.state === shown ? parts : [this.difference(it), ...parts];
  }

  intervention({ id, branch }, place) {
    const from = branch === place.branch ? "" : ` of branch ${branch}, which branch ${place.branch} leaves here,`;
    const show = button(`Show intervention ${id}`, () => this.app.select("interventions", id, false));
    return [said(`Intervention ${id}${from} sets it at this generation.`), show];
  }

  // Program and reader don't agree, which nothing here can mend.
  difference({ reason, shown }) {
    const lines = linesOf(reason), by = lines.length ? `by line ${lines[lines.length - 1]}` : "since no line matches";
    return mistake(`The program shows state ${shown}, and the reader of rules on this page gives state ` +
      `${reason.state}, ${by}. One of them is wrong, so don't rely on what is said below.`);
  }

  before({ reason, around, place, origin }) {
    const where = this.placeWords({ ...place, branch: origin.branch, generation: place.generation - 1n });
    const shape = reason.shape && `, ${reason.shape} neighbourhood`;
    const cells = neighbourhood(this.app.rules, place, reason, around, `The cell and what it saw at ${where}`);
    return [paragraph(`${where}${shape}:`), cells];
  }

  decision({ reason, place }) {
    const becomes = `it becomes ${this.stateName(reason.state, place)}`;
    if (reason.kind === "no rule") return [said("No rule is in use: it stays.")];
    if (reason.kind === "stays") return [said("No line matches: it stays.")];
    if (reason.kind === "tree") return [said(`By this way through the tree ${becomes}:`), this.way(reason)];
    const { line, text, map, values } = reason, stand = Object.entries(values);
    const words = stand.map(([name, it]) => `${name}\u00a0=\u00a0${it}`).join(", ");
    const matches = `It matches ${map.name}${words && `, with ${words}`}.`;
    return [said(`Line ${line} decides, and ${becomes}.`), this.line(line, text, place), paragraph(matches)];
  }

  // A line of the rule, which the text of the rule shows where it is clicked.
  line(number, text, place) {
    if (!this.app.ruleText || place.rule) return code(text);
    const found = button("", () => { this.app.ruleText.open(); this.app.ruleText.highlight(JSON.parse(this.lines)); });
    found.title = `Show line ${number} in the rule (R)`;
    found.append(code(text));
    return found;
  }

  way({ way, state }) {
    const list = document.createElement("ol");
    way.forEach(({ line, asks, state: found, leadsTo }, place) => {
      const entry = document.createElement("li"), isLast = place === way.length - 1;
      const then = isLast ? `which gives ${state}` : `on to node ${leadsTo}`;
      entry.textContent = `line ${line}: ${asks} is ${found}, ${then}`;
      list.append(entry);
    });
    return list;
  }
}

// The numbers of the lines that decide: those of all nodes on the way through a tree.
const linesOf = (reason) => reason?.kind === "line" ? [reason.line] : reason?.way?.map((it) => it.line) ?? [];

function paragraph(words) {
  const node = document.createElement("p");
  node.textContent = words;
  return node;
}

// What is said aloud too.
function said(words) {
  const node = paragraph(words);
  node.className = "said";
  node.setAttribute("role", "status");
  return node;
}

function mistake(words) {
  const node = paragraph(words);
  node.className = "mistake";
  node.setAttribute("role", "alert");
  return node;
}

function code(words) {
  const node = document.createElement("code");
  node.textContent = words;
  return node;
}

function button(words, act) {
  const node = document.createElement("button");
  node.textContent = words;
  node.addEventListener("click", act);
  return node;
}
