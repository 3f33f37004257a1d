// The message that stays until it is closed: a refusal with the line of the file and what helps, or a note.

const node = document.getElementById("alert");

// Shows a refusal. Each offer is what else can be done: words for its button, and what it does.
export function showRefusal(it, offers = []) {
  begin(it.number ? `Refused: ${it.number} ${it.name}` : "That didn't work", "");
  if (it.number) node.append(reasons(it));
  else node.append(` ${it.words}`);
  if (offers.length) node.append(row(offers));
  node.hidden = false;
}

// Shows what is no refusal, but has to be known.
export function showNote(words) {
  begin("Note", "word");
  node.append(` ${words}`);
  node.hidden = false;
}

export function hideAlert() { node.hidden = true; }

// An old refusal goes when something of its kind was taken; a note stays.
export function hideRefusal() { if (node.className !== "word") hideAlert(); }

function begin(words, kind) {
  const close = document.createElement("button"), head = document.createElement("strong");
  close.textContent = "Close";
  close.className = "close";
  close.addEventListener("click", hideAlert);
  head.textContent = words;
  node.className = kind;
  node.replaceChildren(close, head);
}

// What a refusal says: where, what it means, and what helps.
export function reasons(it) {
  const list = document.createElement("ul"), add = (words, kind = "span") => {
    const entry = document.createElement("li"), line = document.createElement(kind);
    line.textContent = words;
    entry.append(line);
    list.append(entry);
  };
  add(it.place === null ? it.of : `${it.of}, line ${it.place}: ${it.line}`, "code");
  if (it.means) add(`It means: ${plain(it.means)}.`);
  if (it.do) add(`What to do: ${plain(it.do)}.`);
  if (it.more) add(`${it.more} more of the script's commands were refused.`);
  return list;
}

// Buttons for what else can be done.
export function row(offers) {
  const found = document.createElement("div");
  found.className = "row";
  for (const { words, act } of offers) {
    const button = document.createElement("button");
    button.textContent = words;
    button.addEventListener("click", () => { hideAlert(); act(); });
    found.append(button);
  }
  return found;
}

export const plain = (words) => words.replaceAll("`", "");
