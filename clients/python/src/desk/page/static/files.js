// Files: those that are dropped or opened, the saved script, and pictures.

import { showRefusal } from "./alert.js";
import { rleOf } from "./rle.js";

const SOUP = 64;

export class Files {
  constructor(app) { Object.assign(this, { app }); }

  // Takes files together: all of them, or none where one is refused. `fit` says how a start is made to suit the rule.
  async take(files, fit = "") {
    if (!files.length) return;
    this.app.say(`Reading ${files.map((it) => it.name).join(" and ")}.`);
    const reply = await this.app.link.files(files, fit);
    if (reply.refused) return showRefusal(reply.refused, this.offers(reply.offers, (it) => this.take(files, it)));
    const refused = reply.ok.refused ?? [];
    this.app.taken();
    if (refused.length) showRefusal({ ...refused[0], more: refused.length - 1 });
  }

  // Takes a rule by its name.
  async takeRule(name, fit = "") {
    const reply = await this.app.link.ask("rule", { name, fit });
    if (reply.refused) return showRefusal(reply.refused, this.offers(reply.offers, (it) => this.takeRule(name, it)));
    this.app.taken();
  }

  offers(offers = [], act) { return offers.map(({ fit, words }) => ({ words, act: () => act(fit) })); }

  // A random start in all states of the rule.
  soup() {
    const { states, rule } = this.app.state, most = states === 256 && !rule ? 1 : states - 1;
    const cells = Uint8Array.from({ length: SOUP * SOUP }, () =>
      Math.random() < 0.5 ? 0 : 1 + Math.floor(Math.random() * most));
    const at = { x: BigInt(-SOUP / 2), y: BigInt(-SOUP / 2) };
    return this.take([new File([rleOf({ ...at, w: SOUP, h: SOUP, states: cells })], "soup.rle")]);
  }

  // Saves the picture.
  png() {
    const { app } = this, { branch, generation, canvas } = app.pane;
    if (!app.pane.node.dataset.known) return app.say("The picture is pending, and can't be saved yet.");
    const [left] = app.panes, isDifference = app.active > 0 && app.difference.isShown && !app.difference.isTooFar;
    const of = isDifference ? `difference-of-branch-${left.branch}-generation-${left.generation}-and-` : "";
    const under = app.pane.rule ? "second-rule-" : "";
    canvas.toBlob((blob) => download(blob, `${of}${under}branch-${branch}-generation-${generation}.png`));
  }
}

// Hands a file to the user.
export function download(blob, name) {
  const link = document.createElement("a");
  link.href = URL.createObjectURL(blob);
  link.download = name;
  link.click();
  setTimeout(() => URL.revokeObjectURL(link.href), 10000);
}
