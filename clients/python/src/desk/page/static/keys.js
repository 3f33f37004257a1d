// The keyboard: a key for all that the page can do.

import { hideAlert } from "./alert.js";
import { listKeys } from "./key_list.js";

const $ = (id) => document.getElementById(id);

export function bindKeys(app) {
  listKeys($("keys"));
  const { player, edits, files, palette, tools, ruleText, shelf, selection, until } = app;
  const nextBranch = () => {
    const all = [0, ...app.state.branches.map((it) => it.id)];
    app.go({ branch: all[(all.indexOf(app.pane.branch) + 1) % all.length] });
  };
  const does = {
    " ": () => player.play(), ",": () => player.goBy(-1), ".": () => player.goBy(1),
    ArrowLeft: () => player.goBy(-1), ArrowRight: () => player.goBy(1),
    "<": () => player.changeSpeed(-1), ">": () => player.changeSpeed(1),
    "[": () => player.setStep(player.step - 1), "]": () => player.setStep(player.step + 1),
    g: () => { $("generation").focus(); $("generation").select(); }, n: nextBranch, u: () => until.open(),
    i: () => app.why.toggle(), q: () => app.secondRule.show(),
    m: () => edits.mark(), b: () => edits.leave(), z: () => app.ask("undo"), y: () => app.ask("redo"),
    h: () => palette.choose(null), e: () => tools.next(), t: () => shelf.open(), v: () => app.try(() => shelf.keep()),
    k: () => $("coordinates").select(), f: () => app.fit(),
    "+": () => app.zoom(1), "=": () => app.zoom(1), "-": () => app.zoom(-1),
    w: () => app.two(), x: () => app.choosePane((app.active + 1) % app.panes.length), d: () => app.differ(),
    c: () => $("curves").click(), l: () => app.curves.box.click(),
    o: () => $("open").click(), s: () => $("save").click(), p: () => files.png(), a: () => app.film.toggle(),
    r: () => ruleText.toggle(), j: () => app.lineCounts.open(),
    "?": () => $("keys").showModal(), Escape: () => app.why.end() || hideAlert(),
  };
  const withControl = { z: does.z, y: does.y, s: does.s, a: () => app.try(() => selection.all()) };
  // A button that the pointer pressed doesn't keep the keys: Space plays.
  addEventListener("click", (event) => { if (event.detail) event.target.closest("button")?.blur(); });
  addEventListener("keydown", (event) => {
    if (event.target.closest("dialog")) return;
    const isTyping = event.target.closest("input, select, textarea");
    const isPress = event.target.closest("button, a, summary");
    if (isTyping && event.target.type !== "checkbox" && event.key !== "Escape" || event.altKey || event.metaKey) return;
    if (isPress && [" ", "Enter"].includes(event.key)) return;
    const key = event.key.length === 1 ? event.key.toLowerCase() : event.key;
    const isDigit = /^[0-9]$/.test(key) && !event.ctrlKey;
    const what = isDigit ? () => palette.choose(Number(key)) : (event.ctrlKey ? withControl : does)[key];
    if (!isTyping && app.selectionPanel.key(event)) event.preventDefault();
    else if (what) {
      event.preventDefault();
      what();
    }
  });
}
