// What stays said above the timeline as long as it is so, each with what can be done about it.

export class Banners {
  constructor(app, node) { Object.assign(this, { app, node, key: "" }); }

  draw() {
    const { named, left, rule, start } = this.app.state, key = JSON.stringify([named, left, rule, start]);
    if (this.key === key) return;
    this.key = key;
    this.node.replaceChildren(...left ? [this.left(left)] : [], ...named ? [this.named(named)] : []);
  }

  // An earlier page ended with an experiment that wasn't saved.
  left({ name, when, rule }) {
    const at = new Date(1000 * when).toLocaleString([], { dateStyle: "medium", timeStyle: "short" });
    const { app } = this, open = async () => { if (!(await app.ask("reopen", { name })).refused) app.taken(); };
    return banner(`An experiment with the rule ${rule || "of an empty desk"} of ${at} wasn't saved.`,
      ["Open it", open], ["Discard it", () => app.ask("discard", { name })]);
  }

  // The start's header names another rule than the one in use.
  named({ rule, whyNot }) {
    const { state, files } = this.app, used = state.rule || "no rule";
    const words = `${state.start} is made for the rule ${rule}, and ${used} is in use.`;
    if (whyNot) return banner(`${words} It can't be taken: ${whyNot}.`);
    return banner(words, [`Take ${rule}`, () => files.takeRule(rule)]);
  }
}

function banner(words, ...offers) {
  const node = document.createElement("div");
  node.className = "banner";
  node.setAttribute("role", "status");
  node.append(words);
  for (const [name, act] of offers) {
    const button = document.createElement("button");
    button.textContent = name;
    button.addEventListener("click", act);
    node.append(button);
  }
  return node;
}
