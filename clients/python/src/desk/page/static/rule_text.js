// The rule as text beside the picture: what is in use, and the draft that is edited. Each pause sends the draft; it is
// taken, or refused, and then the text in use stays what it was.

import { hideRefusal, reasons, row } from "./alert.js";
import { download } from "./files.js";
import { placesIn } from "./line_diff.js";
import { editorIn } from "./rule_editor.js";
import { Swatches } from "./rule_swatches.js";

const PAUSE = 300;  // milliseconds without a key before a draft is sent
const MOST_RULE_FAULT = 19;  // refusals up to this number are of a line of the rule

// It tells by an event `inuse` that the text in use is another one.
export class RuleText extends EventTarget {
  constructor(app, node, button) {
    super();
    Object.assign(this, { app, node, button, id: null, name: "", inUse: null, base: null, fault: null, sent: null,
      shown: [], counts: null, editor: null, written: null, left: null });
    this.$ = (selector) => node.querySelector(selector);
    this.swatches = new Swatches(this, this.$(".swatches"));
    button.addEventListener("click", () => this.toggle());
    this.$("[data-do=close]").addEventListener("click", () => this.close());
    this.$("[data-do=back]").addEventListener("click", () => this.back());
    this.$("[data-do=save]").addEventListener("click", () => this.save());
  }

  get isOpen() { return !this.node.hidden; }

  // The text as it is edited, or null where it isn't known yet.
  get draft() {
    if (this.inUse === null || !this.editor) return null;
    this.written ??= this.editor.text;
    return this.written;
  }

  get isChanged() { return this.draft !== null && this.draft !== this.inUse; }

  // What a tab keeps of it for when it is loaded again.
  kept() { return { isOpen: this.isOpen, draft: this.isChanged ? this.draft : this.left }; }

  restore({ isOpen, draft }) {
    this.left = draft;
    if (isOpen) this.show();
  }

  toggle() { return this.isOpen ? this.close() : this.open(); }

  async open() {
    await this.show();
    this.editor.focus();
  }

  // Shows it, and leaves the focus where it is.
  async show() {
    this.node.hidden = false;
    this.button.setAttribute("aria-pressed", true);
    this.app.changed();
    this.making ??= editorIn(this.$(".editor"), {
      changed: () => this.changed(), leave: () => this.app.pane.canvas.focus(), save: () => this.save() });
    this.editor = await this.making;
    this.editor.refresh();
    await this.fetch();
  }

  close() {
    this.node.hidden = true;
    this.button.setAttribute("aria-pressed", false);
    this.button.focus();
    this.app.changed();
  }

  // Lines of the text in use, from 1, that are set apart until it changes; none with [].
  highlight(lines) {
    this.shown = [...lines];
    this.mark();
    if (lines.length) this.editor?.reveal(this.inDraft(lines[0]));
  }

  // What the counts say of lines of the text in use: a Map as the editor takes it, or null.
  setCounts(counts) {
    const isOther = Boolean(counts) !== Boolean(this.counts);
    this.counts = counts;
    this.node.classList.toggle("counted", Boolean(counts));
    if (isOther) this.editor?.refresh();
    this.mark();
  }

  // Goes to a line of the text in use.
  reveal(line) { this.editor?.reveal(this.inDraft(line)); }

  // Where a line of the text in use stands in the draft, or 0 where it was changed.
  inDraft(line) { return this.isChanged ? this.places().indexOf(line - 1) + 1 : line; }

  // For each line of the draft where it stands in the text in use.
  places() { return placesIn(this.inUse.split("\n"), this.draft.split("\n")); }

  // The state was told: is the text in use another one?
  draw() {
    const { state } = this.app;
    if (state.epoch < 0 || this.isSending) return;
    if (state.ruleId !== this.id) {
      const isOther = state.rule !== this.name;
      Object.assign(this, { id: state.ruleId, name: state.rule, shown: [], isOther: this.isOther || isOther });
      this.isStale = true;
      this.dispatchEvent(new Event("inuse"));
      this.mark();
    }
    if (this.isOpen) this.fetch();
    this.swatches.draw();
    this.tell();
  }

  // Asks for the text in use. The draft becomes it, unless it was edited since.
  async fetch() {
    if (!this.isStale || !this.editor || this.isFetching) return;
    this.isFetching = true;
    const reply = await this.app.link.ask("rule_text");
    this.isFetching = false;
    if (reply.refused) return;  // the server is gone; when it is there again, its state comes first
    if (reply.id !== this.app.state.ruleId) return this.app.changed();
    const isFollowed = !this.isChanged || this.isOther, { isOther } = this;
    Object.assign(this, { inUse: reply.text, id: reply.id, isStale: false, isOther: false });
    if (isOther || this.base === null) this.base = reply.text;
    if (isFollowed) {
      this.fault = null;
      clearTimeout(this.timer);
      this.timer = 0;
      this.put(reply.text);
    }
    this.dispatchEvent(new Event("inuse"));
    this.mark();
    if (this.shown.length) this.reveal(this.shown[0]);
    if (this.left !== null) this.edit(this.left);
    this.left = null;
  }

  // The user has changed the draft.
  changed() {
    if (this.inUse === null) return;
    Object.assign(this, { fault: null, written: null });
    clearTimeout(this.timer);
    this.timer = setTimeout(() => this.send(), PAUSE);
    this.mark();
    this.app.changed();
  }

  // Puts another text there, as if it had been typed.
  edit(text) { this.editor.setText(text, true); }

  // Puts a text there that is in use.
  put(text) {
    this.editor.setText(text);
    this.written = null;
  }

  // Sends the draft. `fit` says how the start is made to suit the rule.
  async send(fit = "") {
    this.timer = 0;
    if (this.isSending) { this.timer = setTimeout(() => this.send(fit), PAUSE); return; }
    const { draft } = this;
    if (draft === this.inUse) return this.mark();
    this.isSending = true;
    const reply = await this.app.link.ask("take_rule_text", { text: draft, fit });
    this.isSending = false;
    if (!reply.refused) this.taken(draft, reply.id);
    else if (draft === this.draft) this.fault = reply;
    this.mark();
    this.app.changed();
  }

  taken(text, id) {
    hideRefusal();
    Object.assign(this, { inUse: text, id, name: this.app.state.rule, fault: null, shown: [], counts: null,
      isStale: false });
    this.dispatchEvent(new Event("inuse"));
  }

  // Drops what was changed since the last text was taken.
  back() {
    if (!this.isChanged) return;
    clearTimeout(this.timer);
    Object.assign(this, { timer: 0, fault: null });
    this.put(this.inUse);
    this.mark();
    this.app.changed();
  }

  save() {
    const { draft } = this, named = /^\s*@RULE\s+(.*?)\s*$/m.exec(draft ?? "");
    if (draft === null) return;
    const name = `${(named?.[1] || "rule").replace(/[^\w.+-]+/g, "-")}.rule`;
    download(new Blob([draft]), name);
    this.base = draft;
    this.app.say(`Saved ${name}${this.isChanged ? ", with what isn't in use" : ""}.`);
    this.mark();
  }

  get faultLine() {
    const it = this.fault?.refused;
    return it?.number <= MOST_RULE_FAULT && it.place || 0;
  }

  // Marks the lines: what was changed, taken, refused, highlighted and counted.
  mark() {
    if (this.draft === null) return;
    const marks = new Map(), now = this.draft.split("\n"), inUse = this.places();
    const base = placesIn(this.base.split("\n"), now);
    const at = (line) => {
      if (!marks.has(line)) marks.set(line, { classes: [], count: "", title: "" });
      return marks.get(line);
    };
    now.forEach((_, it) => {
      if (inUse[it] < 0) note(at(it + 1), "changed", "changed, and not taken yet");
      else if (base[it] < 0) note(at(it + 1), "taken", "changed and taken, and not saved yet");
    });
    if (this.faultLine) note(at(this.faultLine), "refused", `refused: ${this.fault.refused.name}`);
    for (const line of this.shown) if (this.inDraft(line)) note(at(this.inDraft(line)), "shown", "highlighted");
    if (this.counts && !this.isChanged) {
      for (const [line, { classes, count, title }] of this.counts) {
        Object.assign(at(line), { count }).classes.push(...classes);
        note(at(line), "", title);
      }
    }
    this.changedLines = [...inUse].filter((it) => it < 0).length;
    this.editor.mark(marks);
    this.tell();
  }

  // Says how the draft stands to the text in use.
  tell() {
    const words = this.standing(), state = this.$(".standing");
    if (state.textContent !== words) state.textContent = words;
    state.classList.toggle("pending", this.isChanged && !this.fault);
    this.$("[data-do=back]").disabled = !this.isChanged;
    this.tellFault();
    this.editor?.field.setAttribute("aria-invalid", Boolean(this.fault));
  }

  standing() {
    if (this.draft === null) return "The text is being fetched.";
    if (!this.app.isOpen) return "The page's server is gone: nothing is taken.";
    if (this.fault) return "Refused: the last text that was taken stays in use.";
    const count = this.changedLines, lines = count ? `${count} changed line${count > 1 ? "s" : ""}` : "A change";
    if (this.isChanged) return `${lines}: sent as soon as you pause.`;
    return this.inUse ? "This text is in use." : "There is no rule in use: write one here, or open one.";
  }

  tellFault() {
    const box = this.$(".fault"), { fault } = this;
    if (box.of === fault) return;
    box.of = fault;
    box.hidden = !fault;
    if (!fault) return box.replaceChildren();
    const { refused, offers = [] } = fault, head = document.createElement("strong");
    head.textContent = refused.number ? `${refused.number} ${refused.name}` : refused.words;
    box.replaceChildren(head, ...refused.number ? [reasons(refused)] : [],
      ...offers.length ? [row(offers.map(({ fit, words }) => ({ words, act: () => this.send(fit) })))] : []);
    if (this.faultLine) this.editor.reveal(this.faultLine);
  }
}

function note(mark, name, words) {
  if (name) mark.classes.push(name);
  mark.title = [mark.title, words].filter(Boolean).join("; ");
}
