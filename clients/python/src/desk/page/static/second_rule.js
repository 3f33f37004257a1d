// A second rule, under which the right picture shows the same experiment: it is taken by a name, a text or a file.

import { hideRefusal, showRefusal } from "./alert.js";

const MOST = 3 << 20;

export class SecondRule {
  constructor(app, node) {
    Object.assign(this, { app, node, field: node.querySelector("textarea"), file: node.querySelector("input") });
    [this.button, this.open, this.drop] = node.querySelectorAll("button");
    this.output = node.querySelector("output");
    this.button.addEventListener("click", () => this.takeField());
    this.open.addEventListener("click", () => this.file.click());
    this.drop.addEventListener("click", () => app.ask("drop_second"));
    this.file.addEventListener("change", () => app.try(() => this.takeFile(this.file.files[0])));
    // A name is taken by Enter; a text has lines.
    this.field.addEventListener("keydown", (event) => {
      if (event.key !== "Enter" || this.field.value.includes("@RULE") && !event.ctrlKey) return;
      event.preventDefault();
      this.takeField();
    });
  }

  show() {
    this.node.open = true;
    this.field.focus();
  }

  takeField() {
    const words = this.field.value;
    return this.take(words.includes("@RULE") ? { text: words, name: "text" } : { name: words });
  }

  async takeFile(file) {
    this.file.value = "";
    if (file.size > MOST) throw new Error(`${file.name} has more than ${MOST} bytes`);
    await this.take({ text: await file.text(), name: file.name });
  }

  async take(rule, fit = "") {
    const { app } = this, reply = await app.link.ask("second", { ...rule, fit });
    const offers = (reply.offers ?? []).map((it) => ({ words: it.words, act: () => this.take(rule, it.fit) }));
    if (reply.refused) return showRefusal(reply.refused, offers);
    hideRefusal();
    this.begin();
  }

  // Shows both pictures, at the place of the one that is shown.
  begin() {
    const { app } = this, { branch, generation } = app.pane;
    if (app.panes.length < 2) app.two();
    app.active = 0;
    app.go({ branch, generation });
  }

  draw() {
    const { second } = this.app.state, words = second ? `in use: ${second.rule}` : "none";
    if (this.output.textContent !== words) this.output.textContent = words;
    this.drop.disabled = !second;
  }
}
