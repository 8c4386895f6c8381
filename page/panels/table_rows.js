// SPDX-License-Identifier: MIT OR Apache-2.0
// Rows of the table of properties.
import { element } from "./dom.js";

// A row with a name, with a type where there is one, in words or as a field, and with cells.
export function rowOf(name, type, title, ...cells) {
  const kind = type && typeof type === "string" ? element("span", { className: "kind", textContent: ` ${type}` }) : type || null;
  return element("tr", {}, element("td", { title }, element("span", { textContent: name }), kind), ...cells);
}

// A cell with a field, or with several beside one another, each behind its label. It is as wide as two columns, or as one.
export function cellOf(fields, labels, colSpan = 2) {
  if (fields.length === 1) return element("td", { colSpan }, fields[0].box);
  const boxes = fields.flatMap((field, at) => [element("span", { className: "part", textContent: labels[at] }), field.box]);
  return element("td", { colSpan }, element("div", { className: "parts" }, ...boxes));
}
