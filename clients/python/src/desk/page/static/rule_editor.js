// The field in which a rule is edited: CodeMirror where the server has it, else a field with a gutter of our own.
//
// Both have a `text`, and show marks of lines: a Map from a line's number, from 1, to { classes, count, title }.

const LABEL = "The rule's text", LINE = 18;  // pixels of a line
const NO_MARK = { classes: [], count: "", title: "", signs: {} }, BARS = ["changed", "taken", "refused", "shown"];

// An editor in a node. `changed` is called where the user has changed the text, `save` and `leave` by its keys.
export async function editorIn(node, on) {
  const make = await codeMirror();
  return make ? new Mirror(node, make, on) : new Plain(node, on);
}

// CodeMirror, or undefined: the server's file is empty where it isn't installed.
async function codeMirror() {
  if (window.CodeMirror) return window.CodeMirror;
  const sheet = document.createElement("link"), script = document.createElement("script");
  Object.assign(sheet, { rel: "stylesheet", href: "codemirror.css" });
  script.src = "codemirror.js";
  document.head.prepend(sheet);  // the page's own style goes before it
  await new Promise((done) => { script.onload = script.onerror = done; document.head.append(script); });
  if (window.CodeMirror) window.CodeMirror.defineMode("rule", () => ({ token: wordOf }));
  return window.CodeMirror;
}

// What is set apart in a rule's text: sections, comments, variables.
function wordOf(stream) {
  if (stream.sol() && stream.match(/\s*@.*/)) return "section";
  if (stream.match(/#.*/)) return "comment";
  if (stream.sol() && stream.match(/\s*var\b/)) return "keyword";
  if (!stream.match(/[^#]+/)) stream.next();
  return null;
}

class Mirror {
  constructor(node, make, on) {
    this.on = on;
    this.marked = new Map();
    this.editor = make(node, {
      mode: "rule", lineNumbers: true, lineSeparator: "\n", gutters: ["marks", "counts", "CodeMirror-linenumbers"],
      inputStyle: "textarea", screenReaderLabel: LABEL, viewportMargin: 40,
      // Tab leaves the editor, as it leaves any other field.
      extraKeys: { Tab: false, "Shift-Tab": false, Esc: () => on.leave(), "Ctrl-S": () => on.save() },
    });
    this.field = this.editor.getInputField();
    this.editor.on("changes", () => { if (!this.isQuiet) on.changed(); });
  }

  get text() { return this.editor.getValue(); }

  // Puts another text there. What is the same at both ends stays, and so does what is in sight.
  setText(text, isEdit = false) {
    const { editor } = this, change = difference(this.text, text);
    if (!change) return;
    this.isQuiet = !isEdit;
    editor.replaceRange(change.text, editor.posFromIndex(change.from), editor.posFromIndex(change.to));
    this.isQuiet = false;
  }

  // Only what is another mark than before is touched, since that is what takes time.
  mark(marks) {
    const { editor } = this, before = this.marked;
    this.marked = new Map();
    editor.operation(() => {
      for (const [line, it] of marks) {
        if (line > editor.lineCount()) continue;
        const handle = editor.getLineHandle(line - 1);
        this.marked.set(handle, this.revised(handle, before.get(handle) ?? NO_MARK, it));
        before.delete(handle);
      }
      for (const [handle, old] of before) this.revised(handle, old, NO_MARK);
    });
  }

  // A line's mark, changed into another one. It keeps what stands in the gutters.
  revised(handle, old, { classes, count, title }) {
    const { editor } = this, signs = { ...old.signs };
    for (const it of old.classes) if (!classes.includes(it)) editor.removeLineClass(handle, "wrap", `line-${it}`);
    for (const it of classes) if (!old.classes.includes(it)) editor.addLineClass(handle, "wrap", `line-${it}`);
    const put = (gutter, name, isThere, words) => {
      if (isThere && signs[gutter]) say(signs[gutter], words, title);
      else if (isThere || signs[gutter]) {
        signs[gutter] = isThere ? part(name, words, title) : null;
        editor.setGutterMarker(handle, gutter, signs[gutter]);
      }
    };
    put("marks", "bar", classes.some((it) => BARS.includes(it)), "");
    put("counts", "count", count !== "", count);
    return { classes, signs };
  }

  reveal(line) {
    if (line <= this.editor.lineCount()) this.editor.scrollIntoView({ line: line - 1, ch: 0 }, 60);
  }

  focus() { this.editor.focus(); }

  // It was hidden, and is seen now.
  refresh() { this.editor.refresh(); }
}

class Plain {
  constructor(node, on) {
    this.on = on;
    this.field = document.createElement("textarea");
    Object.assign(this.field, { wrap: "off", spellcheck: false, autocomplete: "off" });
    this.field.setAttribute("aria-label", LABEL);
    this.gutter = layer("gutter");
    this.over = layer("over");
    const plain = layer("plain"), inner = layer("inner");
    plain.removeAttribute("aria-hidden");
    inner.removeAttribute("aria-hidden");
    inner.append(this.field, this.over);
    plain.append(this.gutter, inner);
    node.append(plain);
    Object.assign(this, { marks: new Map(), rows: [] });
    this.field.addEventListener("input", () => { this.draw(); on.changed(); });
    this.field.addEventListener("scroll", () => this.scrolled());
    this.field.addEventListener("keydown", (event) => this.key(event));
    this.draw();
  }

  key(event) {
    if (event.key === "Escape") this.on.leave();
    else if (event.key === "s" && event.ctrlKey) this.on.save();
    else return;
    event.preventDefault();
    event.stopPropagation();
  }

  get text() { return this.field.value; }

  setText(text, isEdit = false) {
    const { field } = this, change = difference(field.value, text), { scrollTop, scrollLeft } = field;
    if (!change) return;
    field.setRangeText(change.text, change.from, change.to, "preserve");
    Object.assign(field, { scrollTop, scrollLeft });
    this.draw();
    if (isEdit) this.on.changed();
  }

  mark(marks) {
    this.marks = marks;
    this.draw();
  }

  draw() {
    const lines = this.field.value.split("\n").length, { gutter, over, rows } = this;
    while (rows.length > lines) rows.pop().node.remove();
    for (let line = 1; line <= lines; line++) this.drawRow(line);
    if (!gutter.querySelector(".end")) gutter.append(layer("end"));
    over.replaceChildren(...[...this.marks].filter(([line]) => line <= lines).map(([line, { classes }]) => {
      const found = layer(classes.map((it) => `line-${it}`).join(" "));
      Object.assign(found.style, { top: `${(line - 1) * LINE}px`, height: `${LINE}px` });
      return found;
    }));
    this.scrolled();
  }

  // Draws a row of the gutter anew where it is another one than before.
  drawRow(line) {
    const { rows } = this, key = JSON.stringify(this.marks.get(line)), old = rows[line - 1];
    if (old && old.key === key) return;
    const node = this.row(line);
    if (old) old.node.replaceWith(node);
    else this.gutter.insertBefore(node, this.gutter.querySelector(".end"));
    rows[line - 1] = { key, node };
  }

  row(line) {
    const { classes = [], count = "", title = "" } = this.marks.get(line) ?? {}, found = layer("");
    found.className = classes.map((it) => `line-${it}`).join(" ");
    found.append(part("bar", "", title), part("count", count, title), part("number", `${line}`, ""));
    return found;
  }

  scrolled() {
    this.gutter.scrollTop = this.field.scrollTop;
    this.over.style.transform = `translateY(${-this.field.scrollTop}px)`;
  }

  reveal(line) {
    const { field } = this, at = (line - 1) * LINE, height = field.clientHeight;
    if (at < field.scrollTop + LINE || at > field.scrollTop + height - 2 * LINE) field.scrollTop = at - height / 3;
    this.scrolled();
  }

  focus() { this.field.focus(); }

  refresh() { this.draw(); }
}

// What a text has in place of what another one has, or null where they are the same.
function difference(old, now) {
  if (old === now) return null;
  const most = Math.min(old.length, now.length);
  let head = 0, tail = 0;
  while (head < most && old[head] === now[head]) head++;
  while (tail < most - head && old[old.length - 1 - tail] === now[now.length - 1 - tail]) tail++;
  return { from: head, to: old.length - tail, text: now.slice(head, now.length - tail) };
}

// Changes what a sign says, where it says something else: each change lets the browser lay out the editor anew.
function say(sign, words, title) {
  if (sign.textContent !== words) sign.textContent = words;
  if (sign.title !== title) sign.title = title;
}

function layer(name) {
  const found = document.createElement("div");
  found.className = name;
  found.setAttribute("aria-hidden", "true");
  return found;
}

function part(name, words, title) {
  const found = document.createElement("span");
  Object.assign(found, { className: name, textContent: words, title });
  return found;
}
