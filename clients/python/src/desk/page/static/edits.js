// What is done to the experiment by a button or a key: bookmarks, branches, interventions.

const MOST_WAITS = 100, WAIT = 20;

export class Edits {
  constructor(app, view) { Object.assign(this, { app, view }); }

  // Adds a bookmark, with the view that is chosen for bookmarks.
  async mark(place = this.app.pane.place) {
    const { app } = this, kind = this.view.value, shown = app.pane.view();
    const view = kind !== "window" ? kind : shown === "mc" ? "window -64 -64 128 128" : shown;
    const reply = await app.ask("mark", { ...app.words(place), view });
    if (!reply.refused) app.select("bookmarks", reply.id, false);
  }

  // Lets a branch leave where the active pane is, and goes to it.
  async leave() {
    const { app } = this, { branch, generation } = app.pane;
    const reply = await app.ask("branch", { parent: branch, generation: `${generation}` });
    if (reply.refused) return;
    for (let it = 0; it < MOST_WAITS && !app.entry("branches", reply.id); it++) {
      await new Promise((done) => setTimeout(done, WAIT));
    }
    app.select("branches", reply.id, false);
    app.timeline.draw();
    app.go({ branch: reply.id, generation });
  }

  move(kind, id, generation) {
    const { app } = this;
    if (kind === "bookmarks") return app.ask("move", { id, generation: `${generation}` });
    const it = app.entry(kind, id), by = generation - BigInt(it.first);
    return app.ask("change", { id, first: `${generation}`, distance: it.distance, last: `${BigInt(it.last) + by}` });
  }

  remove(kind, id) {
    if (kind === "branches" && id === 0) return this.app.say("Branch 0 can't be removed.");
    return this.app.ask("remove", { kind, id });
  }
}
