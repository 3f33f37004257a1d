// The saved script: from the server, or the copy that this tab has where the server is gone; and a warning of what is
// not saved.

import { download } from "./files.js";

const APART = 800;  // milliseconds between two copies

export class Saving {
  constructor(app, link) {
    Object.assign(this, { app, link, copy: null, of: -1, isFetching: false });
    link.addEventListener("click", (event) => {
      if (app.isOpen) return;
      event.preventDefault();
      this.saveCopy();
    });
    addEventListener("beforeunload", (event) => { if (this.isUnsaved) event.preventDefault(); });
  }

  get isUnsaved() { return this.app.state.isSaved === false && this.savedAt !== this.app.state.revision; }

  // Keeps a copy of what is new, now and then.
  draw() {
    const { revision } = this.app.state;
    if (revision === undefined || revision === this.of || this.isFetching || !this.app.isOpen) return;
    this.isFetching = true;
    setTimeout(() => this.fetch().catch(() => {}).finally(() => { this.isFetching = false; }), APART);
  }

  async fetch() {
    const { revision } = this.app.state, answer = await fetch(`${this.link.href}?copy`);
    if (answer.ok) Object.assign(this, { copy: await answer.blob(), of: revision });
    this.app.changed();
  }

  saveCopy() {
    const { app, of, copy } = this;
    if (!copy) return app.say("The server is gone, and this tab has no copy of the experiment.");
    download(copy, "experiment.script");
    const isWhole = of === app.state.revision;
    if (isWhole) this.savedAt = of;
    app.say(`Saved this tab's copy, since the server is gone.${isWhole ? "" : " The last edits aren't in it."}`);
  }
}
