// The line that says what is current and what is pending, and for some seconds what was just done.

import { plain } from "./alert.js";

const SHOWN = 4000;
const counted = (count, one, more) => `${count} ${count === 1 ? one : more}`;

export class Status {
  constructor(app, node) { Object.assign(this, { app, node, said: null }); }

  // Says something for a while. Where it speaks of what may change, it is a function that gives the words.
  say(words) {
    this.said = { words, until: Date.now() + SHOWN };
    this.draw();
    setTimeout(() => this.draw(), SHOWN + 100);
  }

  get isComputing() {
    const { isOpen, state } = this.app;
    return Boolean(state.pending && isOpen && !state.cause && !state.isLost);
  }

  // What is done about all that is pending under a rule, in words.
  progress({ cause, isLost, pending } = this.app.state) {
    if (isLost) return "the program was lost";
    if (cause) return `given up for now, ${cause.number} ${cause.name}`;
    return pending && this.app.isOpen ? "being computed" : "not known yet";
  }

  // The same with what the cause means and what helps.
  why(side = this.app.state) {
    const { cause, isLost } = side, words = this.progress(side);
    return cause && !isLost ? `${words}. It means: ${plain(cause.means)}. What to do: ${plain(cause.do)}.` : words;
  }

  draw() {
    const { state, isOpen, rules } = this.app, parts = [this.known(), ...rules.knownOfSecond()];
    if (this.said && this.said.until > Date.now()) {
      parts.push(typeof this.said.words === "function" ? this.said.words() : this.said.words);
    }
    const words = parts.join(" ");
    if (this.node.textContent !== words) this.node.textContent = words;
    this.node.className = state.pending || state.isLost || !isOpen || rules.isSecondDue ? "pending" : "";
  }

  known() {
    const { state, isOpen } = this.app, bookmarks = counted(state.bookmarks.length, "bookmark", "bookmarks");
    if (!isOpen) return "The page's server is gone; its program may have been ended.";
    if (state.isLost) return "The program was lost.";
    if (state.cause) return `Pending, ${this.why()}`;
    if (!state.pending) {
      return `All is current: ${bookmarks}, ${counted(state.branches.length + 1, "branch", "branches")}.`;
    }
    const due = state.bookmarks.filter((it) => !it.isCurrent).length;
    const views = counted(Math.max(0, state.pending - due), "view", "views");
    return `Computing: ${due} of ${bookmarks} pending, and ${views}.`;
  }
}
