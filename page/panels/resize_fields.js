// SPDX-License-Identifier: MIT OR Apache-2.0
// The fields of the dialog for another size of the map: its columns and rows, and where the old map goes in it, at one of nine places or by
// numbers, with a picture and words of what comes and what is cut off.
import { button, element } from "./dom.js";
import { KINDS } from "../core/kinds.js";

const SPACE = "http://www.w3.org/2000/svg";
// The length of the longer side of the picture, and the space around it.
const LONGEST = 132;
const MARGIN = 4;
const ROWS = ["Upper", "Middle", "Lower"];
const COLUMNS = ["left", "middle", "right"];
// What may come or go at each side: [words for it, what it is counted in].
const SIDES = [["at the left", "column"], ["at the right", "column"], ["above", "row"], ["below", "row"]];

const counted = (count, one) => `${count} ${one}${count === 1 ? "" : "s"}`;
const nameOf = (row, column) => (row === 1 && column === 1 ? "In the middle" : `${ROWS[row]} ${COLUMNS[column]}`);

// What comes at each side by the new size and the old map's place in it; what is below 0 goes.
function sidesOf(map, { width, height, right, down }) {
  return [right, width - map.width - right, down, height - map.height - down];
}

function wordsOf(sides) {
  const of = (sign, verb) => {
    const all = SIDES.map(([where, one], at) => [Math.max(0, sides[at] * sign), one, where]).filter(([count]) => count > 0);
    return all.length ? `${verb} ${all.map(([count, one, where]) => `${counted(count, one)} ${where}`).join(", ")}.` : "";
  };
  return [of(1, "Adds"), of(-1, "Cuts off")].filter(Boolean).join(" ") || "The size stays as it is.";
}

class OldMapPlace {
  constructor(map) {
    Object.assign(this, { map, place: [0, 0] });
    this.picture = document.createElementNS(SPACE, "svg");
    this.picture.setAttribute("role", "img");
    this.words = element("p", { className: "hint", role: "status" });
    this.buttons = ROWS.flatMap((_, row) => COLUMNS.map((__, column) => button("", nameOf(row, column), () => this.take([column, row]), { ariaLabel: nameOf(row, column) })));
    const grid = element("div", { className: "places", role: "group", ariaLabel: "Where the old map goes" }, ...this.buttons);
    this.element = element("div", { id: "old-map-place" }, element("span", { textContent: "Where the old map goes" }), element("div", {}, grid, this.picture), this.words);
  }

  begin(form) {
    this.form = form;
    form.addEventListener("input", ({ target }) => this.typed(target.name));
    this.show();
  }

  // The numbers in the fields; those that are none count as 0.
  get numbers() {
    return Object.fromEntries(["width", "height", "right", "down"].map(name => [name, Math.round(Number(this.form.elements[name].value)) || 0]));
  }

  // Another size leaves the old map at its place of the nine; a number that is typed puts it elsewhere.
  typed(name) {
    if (name === "right" || name === "down") this.place = null;
    if (this.place) this.fill();
    this.show();
  }

  take(place) {
    this.place = place;
    this.fill();
    this.show();
  }

  fill() {
    const { numbers: { width, height }, map, place: [column, row] } = this;
    this.form.elements.right.value = Math.floor((width - map.width) * column / 2);
    this.form.elements.down.value = Math.floor((height - map.height) * row / 2);
  }

  show() {
    const { map, numbers, place } = this;
    this.buttons.forEach((each, at) => {
      const isOn = place !== null && at === place[1] * 3 + place[0];
      each.classList.toggle("on", isOn);
      each.setAttribute("aria-pressed", String(isOn));
    });
    this.words.textContent = wordsOf(sidesOf(map, numbers));
    this.draw(numbers);
  }

  // The new map as a frame, and the old one in it or over its edges.
  draw({ width, height, right, down }) {
    const { map } = this;
    const [x0, y0] = [Math.min(0, right), Math.min(0, down)];
    const [x1, y1] = [Math.max(width, right + map.width), Math.max(height, down + map.height)];
    const scale = LONGEST / Math.max(x1 - x0, y1 - y0, 1);
    const box = (name, x, y, wide, high) => {
      const made = document.createElementNS(SPACE, "rect");
      const lengths = { class: name, x: (x - x0) * scale + MARGIN, y: (y - y0) * scale + MARGIN, width: Math.max(0, wide * scale), height: Math.max(0, high * scale) };
      for (const [key, value] of Object.entries(lengths)) made.setAttribute(key, value);
      return made;
    };
    this.picture.setAttribute("width", (x1 - x0) * scale + 2 * MARGIN);
    this.picture.setAttribute("height", (y1 - y0) * scale + 2 * MARGIN);
    this.picture.setAttribute("aria-label", this.words.textContent);
    const [left, top] = [Math.max(0, right), Math.max(0, down)];
    const [wide, high] = [Math.min(width, right + map.width) - left, Math.min(height, down + map.height) - top];
    this.picture.replaceChildren(box("lost", right, down, map.width, map.height), box("kept", left, top, wide, high), box("new", 0, 0, width, height));
  }
}

export function resizeFields(map) {
  return [
    { name: "width", label: "Columns", value: map.width, kind: KINDS.cells },
    { name: "height", label: "Rows", value: map.height, kind: KINDS.cells },
    new OldMapPlace(map),
    { name: "right", label: "Move the old map right by", value: 0, kind: KINDS.coordinate },
    { name: "down", label: "and down by", value: 0, kind: KINDS.coordinate },
  ];
}
