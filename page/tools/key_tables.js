// SPDX-License-Identifier: MIT OR Apache-2.0
// Tables of keys: rows of [keys, what they do, a call]. From such a table keys are bound, and listed. A key is as `Ctrl+Shift+z`.
import { button, element, shown } from "../panels/dom.js";

export const ARROWS = { arrowleft: [-1, 0], arrowright: [1, 0], arrowup: [0, -1], arrowdown: [0, 1] };
export const ARROW_KEYS = Object.keys(ARROWS);

const SIGNS = ["+", "-", "=", "?", "/"];

// The word of a key that was pressed: a sign is named without the Shift that it may need, and the space bar without any. A digit is named by
// its place on the keyboard, which may have another letter there.
export function wordOf(event) {
  if (event.code === "Space" || event.key === " ") return "space";
  const digit = /^(?:Digit|Numpad)([1-9])$/.exec(event.code)?.[1];
  const isDigit = digit && (event.shiftKey || (event.code.startsWith("Digit") && !SIGNS.includes(event.key)));
  const key = isDigit ? digit : event.key.toLowerCase();
  const isSign = SIGNS.includes(key);
  return `${event.ctrlKey || event.metaKey ? "Ctrl+" : ""}${event.shiftKey && !isSign ? "Shift+" : ""}${key}`;
}

// The key of a word, without what is held with it.
export const keyOf = word => word.slice(word.lastIndexOf("+", word.length - 2) + 1);

// The calls of a table by the words of their keys.
export const callsOf = rows => new Map(rows.flatMap(([keys, , call]) => keys.map(key => [key, call])));

// Has what has the focus take the keys of a table, which are then taken by nothing else. A call is given the direction of an arrow key, or
// null, and the event; it may give `false` where the key is not for it.
export function pressed(calls, event) {
  if (event.altKey) return;
  const word = wordOf(event);
  const call = calls.get(word);
  if (!call || call(ARROWS[keyOf(word)] ?? null, event) === false) return;
  event.preventDefault();
  event.stopPropagation();
}

// ---- the list of keys, from the tables that bind them
const NAMES = {
  escape: "Esc", delete: "Del", backspace: "Backspace", f1: "F1", f2: "F2", space: "Space", enter: "Enter", home: "Home", end: "End",
  pageup: "PgUp", pagedown: "PgDn",
  arrowleft: "←", arrowright: "→", arrowup: "↑", arrowdown: "↓",
};

// How a key is written: `Ctrl+Shift+Z`.
function nameOf(word) {
  const key = keyOf(word);
  return word.slice(0, word.length - key.length) + (NAMES[key] ?? key.toUpperCase());
}

// The keys of a row: the four arrows as one, and of nine digits only the first and the last.
function namesOf(keys) {
  const held = [...new Set(keys.map(key => key.slice(0, key.length - keyOf(key).length)))];
  const isAll = prefix => ARROW_KEYS.every(key => keys.includes(prefix + key));
  if (held.every(isAll)) return held.map(prefix => (prefix ? `${prefix}arrow keys` : "Arrow keys")).join(", ");
  const names = keys.map(nameOf);
  return names.length > 8 ? `${names[0]} to ${names[names.length - 1]}` : names.join(", ");
}

// A row of the list; with `onChange` its keys are a button.
function rowOf([keys, text], onChange) {
  const shown = onChange ? button(keys || "none", "Change this key", event => onChange(event.target), { className: "own-key" }) : keys;
  return element("tr", {}, element("th", { scope: "row" }, shown), element("td", { textContent: text }));
}

function tableOf({ title, rows }, { isOwn, onChange }) {
  const made = rows.map(([keys, text]) => rowOf([namesOf(keys), text], isOwn(text) ? at => onChange(at, text) : null));
  return element("section", {}, element("h3", { textContent: title }), element("table", {}, element("tbody", {}, ...made)));
}

// Waits for the next key that is pressed, in the place of the words of a button; Escape gives none.
function askKey(at, take) {
  const before = at.textContent;
  at.textContent = "press a key";
  const listen = event => {
    event.preventDefault();
    event.stopImmediatePropagation();
    if (["Control", "Shift", "Alt", "Meta"].includes(event.key)) return;
    removeEventListener("keydown", listen, true);
    at.textContent = before;
    if (event.key !== "Escape") take(wordOf(event));
  };
  addEventListener("keydown", listen, true);
}

// `groups` are the tables that bind the keys: { title, rows } each. Rows of which `isOwn(text)` is true get another key by a click:
// `change(text, key)` and `reset()` do that, and give the groups as they are then.
export function showKeys(groups, { isOwn, change, reset }) {
  const columns = element("div", { className: "columns" });
  const put = all => columns.replaceChildren(...all.map(group => tableOf(group, { isOwn, onChange: (at, text) => askKey(at, key => put(change(text, key))) })));
  put(groups);
  const tables = element("div", { className: "rows", tabIndex: 0, role: "region", ariaLabel: "All keys" }, columns);
  const close = button("Close", "Esc", () => dialog.close(""), { autofocus: true });
  const back = button("The keys as they were", "Forgets the keys of your own", () => put(reset()));
  const hint = element("p", { className: "hint", textContent: "Click at a key, and press another one, to change it. The browser keeps your keys." });
  const form = element("form", { method: "dialog" }, element("h2", { textContent: "Keys" }), hint, tables, element("div", { className: "answers" }, back, close));
  const dialog = element("dialog", { id: "keys" }, form);
  return shown(dialog);
}
