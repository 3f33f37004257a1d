// All keys in words, as the dialog lists them.

const KEYS = {
  "Time": [
    [", .", "a step back or on; the arrows Left and Right too"], ["[ ]", "smaller or larger steps"],
    ["Space", "play or pause"], ["< >", "play slower or faster"], ["G", "type a generation"],
    ["U", "run until something is so"], ["N", "the next branch"],
  ],
  "The experiment": [
    ["M", "add a bookmark here"], ["B", "leave the branch here"], ["Z Y", "undo, redo; with Ctrl too"],
    ["Tab", "go through branches, interventions and bookmarks; there arrows move by 1, with Shift by 10, Enter " +
      "selects, Delete removes"],
  ],
  "Drawing": [
    ["0 to 9", "paint with a state"], ["H", "move the picture by hand; so does the right button"],
    ["E", "the next tool: pen, line, rectangle, bucket, select"], ["Alt and click", "paint with the state of a cell"],
    ["arrows", "in the picture: choose a cell, and with Shift move the picture"], ["Enter", "paint the chosen cell"],
  ],
  "Patterns": [
    ["Shift and drag", "select"], ["Ctrl A", "select all"], ["Ctrl C X V", "copy, cut, paste as RLE"],
    ["arrows", "move what is selected or to be placed, with Shift by 10"], ["{ }", "rotate"], ["| _", "flip"],
    ["Enter", "place what is to be placed, with Shift its empty cells too; or else fill the selection"],
    ["%", "fill the selection at random"], ["Delete", "clear the selection, with Shift all outside of it"],
    ["T", "the stamps"], ["V", "keep what is selected as a stamp"], ["Escape", "drop it, and then the selection"],
  ],
  "Looking": [
    ["+ - F", "zoom, and show the whole pattern"], ["K", "go to coordinates"],
    ["W X", "side by side, the other picture"], ["D", "what differs between the two"],
    ["Q", "a second rule, under which the right picture shows the same"],
    ["C L", "counts as curves, logarithmic"],
    ["I", "why a cell is so: then click it, or choose it by arrows first"],
  ],
  "The rule": [
    ["R", "the rule as text; a pause takes what was written"], ["Tab Escape", "leave the text; Escape to the picture"],
    ["Ctrl S", "in the text: save it as a .rule file"], ["J", "which lines of the rule fire"],
  ],
  "Files": [
    ["O", "open"], ["S", "save the experiment as a script; with Ctrl too"], ["P", "save the picture"],
    ["A", "save an animation, or cancel it"],
  ],
  "Else": [["Escape", "close a message"], ["?", "this list"]],
};

// Fills the dialog.
export function listKeys(dialog) {
  const close = document.createElement("button"), lists = document.createElement("div");
  lists.className = "keys";
  for (const [name, keys] of Object.entries(KEYS)) lists.append(group(name, keys));
  close.textContent = "Close";
  close.addEventListener("click", () => dialog.close());
  dialog.append(lists, close);
}

function group(name, keys) {
  const found = document.createElement("section"), head = document.createElement("h2");
  const table = document.createElement("table");
  head.textContent = name;
  for (const [key, words] of keys) {
    const row = table.insertRow(), sign = document.createElement("kbd");
    sign.textContent = key;
    row.insertCell().append(sign);
    row.insertCell().append(words);
  }
  found.append(head, table);
  return found;
}
