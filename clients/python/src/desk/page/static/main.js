// The page: what is chosen, what of that is wanted of the server, and what is known.

import { hideRefusal, showNote, showRefusal } from "./alert.js";
import { Banners } from "./banners.js";
import { Camera } from "./camera.js";
import { Census } from "./census.js";
import { Clipboard } from "./clipboard.js";
import { Controls } from "./controls.js";
import { Curves } from "./curves.js";
import { Details } from "./details.js";
import { Difference } from "./difference.js";
import { Edits } from "./edits.js";
import { Export } from "./export.js";
import { Files } from "./files.js";
import { Film } from "./film.js";
import { Frames, lookAt, placeKey } from "./frames.js";
import { Ghost } from "./ghost.js";
import { bindKeys } from "./keys.js";
import { keep, restore } from "./kept.js";
import { LineCounts } from "./line_counts.js";
import { Link } from "./link.js";
import { Palette } from "./palette.js";
import { Pane } from "./pane.js";
import { Player } from "./player.js";
import { farEnd } from "./reach.js";
import { RuleText } from "./rule_text.js";
import { Rules } from "./rules.js";
import { Saving } from "./saving.js";
import { SecondRule } from "./second_rule.js";
import { Shelf } from "./shelf.js";
import { Selection } from "./selection.js";
import { SelectionPanel } from "./selection_panel.js";
import { Status } from "./status.js";
import { Timeline } from "./timeline.js";
import { Tools } from "./tools.js";
import { Until } from "./until.js";
import { Wanted } from "./wanted.js";
import { Why } from "./why.js";
import { FARTHEST } from "./scale.js";

const $ = (id) => document.getElementById(id);
const EMPTY = { epoch: -1, branches: [], interventions: [], bookmarks: [], undo: 0, redo: 0, pending: 0,
  colors: [[48, 48, 48], [255, 255, 255]], names: {}, states: 2, rule: "", start: "" };

class App {
  constructor() {
    Object.assign(this, { state: EMPTY, active: 0, selected: null, near: 64, far: 256, wantsFit: true });
    Object.assign(this, { camera: new Camera(), frames: new Frames(), rules: new Rules(this) });
    this.status = new Status(this, $("status"));
    this.wanted = new Wanted(this);
    this.ghost = new Ghost(this);
    this.selection = new Selection(this, $("selection"));
    this.clipboard = new Clipboard(this);
    this.selectionPanel = new SelectionPanel(this, $("selection"));
    this.tools = new Tools(this, $("tools"));
    this.palette = new Palette(this, $("palette"));
    this.player = new Player(this, $("play"));
    this.edits = new Edits(this, $("view"));
    this.difference = new Difference(this);
    this.film = new Film(this, $("film"), $("frames"));
    this.panes = [new Pane(this, 0)];
    $("panes").append(this.panes[0].node);
    this.timeline = new Timeline(this, $("timeline"));
    this.curves = new Curves(this, $("curve"));
    this.details = new Details(this, $("details"));
    this.files = new Files(this);
    this.census = new Census(this, $("census"));
    this.export = new Export(this, $("export"));
    this.until = new Until(this, $("until"));
    this.why = new Why(this, $("why"), $("ask-why"));
    this.secondRule = new SecondRule(this, $("second"));
    this.shelf = new Shelf(this, $("shelf"));
    this.ruleText = new RuleText(this, $("rule"), $("ruletext"));
    this.lineCounts = new LineCounts(this, $("fires"));
    this.saving = new Saving(this, $("save"));
    this.controls = new Controls(this);
    this.banners = new Banners(this, $("banners"));
    restore(this);
    this.link = new Link({
      open: () => { this.isOpen = true; this.sent = ""; },
      closed: () => { this.isOpen = false; this.draw(); },
      state: (it) => this.take(it),
      look: (it) => { this.frames.take(it); this.arrived(it); },
      word: (it) => showNote(it.words),
      search: (it) => this.until.take(it),
      fires: (it) => this.lineCounts.take(it),
      said: (it) => this.say(it.words),
      end: () => {},
    });
    new ResizeObserver(() => this.changed()).observe($("panes"));
    bindKeys(this);
  }

  get pane() { return this.panes[this.active]; }

  // The words of a place in a message.
  words({ branch, generation, rule = 0 }) { return { branch, generation: `${generation}`, rule }; }

  entry(kind, id) { return this.state[kind].find((it) => it.id === id); }

  // The generation at which a branch begins.
  forkOf(branch) { return BigInt(this.entry("branches", branch)?.generation ?? 0); }

  say(words) { this.status.say(words); }

  // Asks for something, and shows the refusal if it is refused.
  async ask(what, more) {
    const reply = await this.link.ask(what, more);
    if (reply.refused) showRefusal(reply.refused);
    return reply;
  }

  // Does something that may not be possible, and says why it isn't.
  async try(what) {
    try {
      await what();
    } catch (fault) {
      this.say(`That didn't work: ${fault.message}.`);
    }
  }

  take(state) {
    const isFirst = this.state.epoch < 0, isOtherStart = state.start !== this.state.start;
    this.state = state;
    this.frames.begin(state);
    this.rules.take(state);
    for (const pane of this.panes) if (pane.branch && !this.entry("branches", pane.branch)) pane.branch = 0;
    if (this.selected && this.selected.id && !this.entry(this.selected.kind, this.selected.id)) this.selected = null;
    if (isOtherStart && !isFirst) {
      this.wantsFit = true;
      for (const pane of this.panes) Object.assign(pane, { branch: 0, generation: 0n });
    }
    this.reach();
    this.changed();
  }

  // The far end of the timeline, unless it was chosen: beyond all that there is.
  reach() { this.far = $("far").value ? 2 ** Number($("far").value) : farEnd(this); }

  // Something was chosen or has changed: what is wanted now is sent, and all is drawn.
  changed() {
    if (this.isDue) return;
    this.isDue = true;
    requestAnimationFrame(() => {
      this.isDue = false;
      for (const pane of this.panes) pane.resize();
      this.timeline.draw();
      this.send();
      this.draw();
      keep(this);
    });
  }

  draw() {
    for (const pane of this.panes) pane.draw();
    for (const part of this.parts()) part.draw();
  }

  parts() {
    return [this.wanted, this.tools, this.selection, this.palette, this.curves, this.details, this.film, this.census,
      this.export, this.until, this.why, this.secondRule, this.ruleText, this.lineCounts, this.controls, this.banners,
      this.saving, this.status];
  }

  send() {
    if (!this.isOpen || this.state.epoch < 0) return;
    const looks = this.panes.map((pane) => lookAt(pane.place, pane.view()));
    if (this.wantsFit) looks.push(lookAt(this.pane.place, "mc"));
    const { wanted, player, difference, details, film, curves, census, why } = this;
    const parts = [wanted, player, difference, details, film, curves, census, why];
    looks.push(...parts.flatMap((it) => it.looks()));
    const words = JSON.stringify(looks);
    if (words === this.sent) return;
    this.sent = words;
    this.link.ask("look", { looks });
  }

  arrived(message) {
    if (message.view === "mc" && this.wantsFit && placeKey(message) === placeKey(this.pane.place)) {
      const { squares } = this.frames.get(message, "mc"), { w, h } = this.pane.size;
      this.wantsFit = false;
      const box = squares?.box();
      if (box) this.camera.fit(box, w, h);
      this.changed();
    }
    if (!this.isDrawDue) {
      this.isDrawDue = true;
      requestAnimationFrame(() => { this.isDrawDue = false; this.draw(); });
    }
  }

  // Goes to a place, in the active pane; under two rules in both.
  go(place) {
    const pane = this.pane, branch = place.branch ?? pane.branch, fork = this.forkOf(branch);
    let generation = place.generation ?? pane.generation;
    generation = generation < fork ? fork : generation > FARTHEST ? FARTHEST : generation;
    for (const it of this.state.second ? this.panes : [pane]) Object.assign(it, { branch, generation });
    this.reach();
    this.changed();
  }

  // Selects an entry, and goes there.
  select(kind, id, isGone = true) {
    this.selected = { kind, id };
    if (isGone) {
      const it = this.entry(kind, id);
      if (kind === "branches") this.go({ branch: id });
      else this.go({ branch: it.branch, generation: BigInt(it.generation ?? it.first) });
    }
    this.changed();
  }

  choosePane(index) {
    if (this.active === index) return;
    this.active = index;
    this.changed();
  }

  // Two places side by side, or one again.
  two() {
    if (this.panes.length > 1) {
      this.panes.pop().node.remove();
      this.active = 0;
    } else {
      const pane = new Pane(this, 1), { branch, generation } = this.pane;
      Object.assign(pane, { branch, generation });
      this.panes.push(pane);
      $("panes").append(pane.node);
      this.active = 1;
    }
    this.changed();
  }

  differ() {
    if (this.panes.length < 2) return this.say("The difference is that of two places side by side: press W first.");
    this.difference.isOn = !this.difference.isOn;
    if (!this.difference.isOn) this.difference.node.remove();
    this.changed();
  }

  zoom(by) {
    const { w, h } = this.pane.size;
    this.camera.zoomTo(this.camera.zoom + by, w / 2, h / 2, w, h);
    this.changed();
  }

  // Shows the whole pattern, as soon as it is known.
  fit() {
    this.wantsFit = true;
    if (this.frames.get(this.pane.place, "mc")) this.arrived({ ...this.words(this.pane.place), view: "mc" });
    this.changed();
  }

  // A file was taken: what was refused before is of no interest any more.
  taken() {
    hideRefusal();
    this.wantsFit = true;
    this.changed();
  }
}

window.app = new App();
