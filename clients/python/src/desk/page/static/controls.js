// The buttons and fields above and beside the picture: what they do, and what they show.

import { SPEEDS } from "./player.js";
import { mark } from "./fields.js";
import { read, readCell, spelled } from "./scale.js";

const $ = (id) => document.getElementById(id);
const STEPS = Array.from({ length: 61 }, (_, it) => it);
const NEAR = [16, 64, 256, 1024, 4096, 65536, 1048576], FAR = ["", 8, 10, 12, 14, 16, 20, 30, 40, 50, 60];

export class Controls {
  constructor(app) {
    this.app = app;
    this.bindButtons();
    this.bindChoices();
    this.bindGeneration();
    this.bindCoordinates();
    bindDrop(app.files);
  }

  bindButtons() {
    const { app } = this, { player, edits, files } = app;
    const does = {
      open: () => $("file").click(), undo: () => app.ask("undo"), redo: () => app.ask("redo"),
      png: () => files.png(), film: () => app.film.toggle(), help: () => $("keys").showModal(),
      play: () => player.play(), back: () => player.goBy(-1), forth: () => player.goBy(1),
      mark: () => edits.mark(), leave: () => edits.leave(), two: () => app.two(), differ: () => app.differ(),
      paste: () => app.clipboard.paste(), smaller: () => app.zoom(-1), larger: () => app.zoom(1), fit: () => app.fit(),
      soup: () => files.soup(), new: () => app.ask("new"),
      takerule: () => files.takeRule($("lifelike").value || "B3/S23"),
    };
    for (const [id, what] of Object.entries(does)) $(id).addEventListener("click", what);
    $("file").addEventListener("change", () => { files.take([...$("file").files]); $("file").value = ""; });
  }

  bindChoices() {
    const { app } = this, { player } = app;
    fill($("step"), STEPS, 0, (it) => spelled(1n << BigInt(it)));
    fill($("speed"), SPEEDS, player.speed, (it) => `${it}/s`);
    fill($("near"), NEAR, app.near, (it) => spelled(BigInt(it)));
    fill($("far"), FAR, "", (it) => it === "" ? "what is there" : `2^${it}`);
    const on = (id, what) => $(id).addEventListener("change", what);
    on("branch", () => app.go({ branch: Number($("branch").value) }));
    on("step", () => player.setStep(Number($("step").value)));
    on("speed", () => player.setSpeed(Number($("speed").value)));
    on("near", () => { app.near = Number($("near").value); app.reach(); app.changed(); });
    on("far", () => { app.reach(); app.changed(); });
    on("curves", () => { $("curve").hidden = !$("curves").checked; app.changed(); });
  }

  bindGeneration() {
    const field = $("generation");
    field.addEventListener("change", () => {
      const found = read(field.value);
      mark(field, found === null ? "A generation is a number such as 1000, 1e6 or 2^60." : "");
      if (found !== null) { field.shown = field.value; this.app.go({ generation: found }); }
    });
    field.addEventListener("input", () => mark(field, ""));
  }

  bindCoordinates() {
    const field = $("coordinates"), { app } = this;
    field.addEventListener("change", () => {
      const found = field.value === "" ? [] : readCell(field.value);
      mark(field, found ? "" : "Coordinates are two numbers such as 12, -7.");
      if (!found?.length) return;
      const [x, y] = found;
      Object.assign(app.camera, { x, y });
      app.pane.cursor = { x, y };
      app.say(`The middle of the picture is (${x}, ${y}).`);
      app.changed();
    });
    field.addEventListener("input", () => mark(field, ""));
  }

  draw() {
    const { app } = this, { state, pane, camera } = app;
    $("what").textContent = [state.rule || "no rule", state.start || "no pattern"].join(", ");
    $("undo").disabled = !state.undo;
    $("redo").disabled = !state.redo;
    $("two").setAttribute("aria-pressed", app.panes.length > 1);
    $("differ").disabled = app.panes.length < 2;
    $("differ").setAttribute("aria-pressed", app.difference.isShown);
    fill($("branch"), [0, ...state.branches.map((it) => it.id)], pane.branch);
    $("step").value = app.player.step;
    $("speed").value = app.player.speed;
    $("near").value = app.near;
    this.drawGeneration(spelled(pane.generation));
    const { zoom } = camera;
    $("zoom").textContent = zoom >= 0 ? `${2 ** zoom} : 1` : `1 : ${spelled(1n << BigInt(-zoom))}`;
  }

  // What is being typed stays.
  drawGeneration(words) {
    const field = $("generation"), isTyped = document.activeElement === field && field.value !== (field.shown ?? "0");
    if (isTyped || field.shown === words) return;
    field.value = field.shown = words;
    mark(field, "");
    if (document.activeElement === field) field.select();
  }
}

function bindDrop(files) {
  let depth = 0;
  const show = (by) => { depth = Math.max(0, depth + by); $("drop").hidden = depth === 0; };
  addEventListener("dragenter", (event) => { event.preventDefault(); show(1); });
  addEventListener("dragleave", () => show(-1));
  addEventListener("dragover", (event) => event.preventDefault());
  addEventListener("drop", (event) => {
    event.preventDefault();
    show(-depth);
    files.take([...event.dataTransfer.files]);
  });
}

export function fill(node, values, chosen, words = (it) => `${it}`) {
  const key = values.join();
  if (node.dataset.values !== key) {
    node.dataset.values = key;
    node.replaceChildren(...values.map((it) => new Option(words(it), it)));
  }
  if (document.activeElement !== node || node.value !== `${chosen}`) node.value = chosen;
}
