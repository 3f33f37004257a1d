// Fields with numbers: what is wrong is said at the field.

// Marks a field with what is wrong with it, or as right where there are no words.
export function mark(field, words) {
  const id = `${field.id || field.name}-wrong`;
  let note = document.getElementById(id);
  if (!words) {
    note?.remove();
    field.removeAttribute("aria-invalid");
    field.removeAttribute("aria-describedby");
    return;
  }
  if (!note) {
    note = document.createElement("span");
    note.id = id;
    note.className = "wrong";
    note.setAttribute("role", "alert");
    (field.closest("label") ?? field).after(note);
  }
  note.textContent = words;
  field.setAttribute("aria-invalid", "true");
  field.setAttribute("aria-describedby", id);
}
