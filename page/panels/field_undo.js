// SPDX-License-Identifier: MIT OR Apache-2.0
// Ctrl+Z in a field undoes what was typed there; where nothing was, the last step of the map. Redo is the other way round.
import { isField } from "./dom.js";

// The fields in which the browser has undone something, which it can do again.
const undone = new WeakSet();

// Whether a field has a text that the map does not have.
function isTyped(field) {
  const isText = field instanceof HTMLTextAreaElement || (field instanceof HTMLInputElement && !["checkbox", "color", "range"].includes(field.type));
  return isText && field.value !== field.defaultValue;
}

function wanted({ key, shiftKey }) {
  const letter = key.toLowerCase();
  if (letter === "y") return "redo";
  return letter === "z" ? (shiftKey ? "redo" : "undo") : null;
}

export function bindFieldUndo(bench) {
  document.addEventListener("input", event => (event.inputType === "historyUndo" ? undone.add(event.target) : undone.delete(event.target)));
  document.addEventListener("keydown", event => {
    const field = document.activeElement;
    const line = (event.ctrlKey || event.metaKey) && !event.altKey && isField(field) && !field.closest("dialog") ? wanted(event) : null;
    if (!line || isTyped(field) || (line === "redo" && undone.has(field))) return;
    event.preventDefault();
    bench.macros[line]();
  });
}
