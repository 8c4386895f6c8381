// SPDX-License-Identifier: MIT OR Apache-2.0
// The objects of the map in a list, by their layers, with a search.
import { KINDS } from "../core/kinds.js";
import { ask, byId, element } from "./dom.js";
import { ObjectDrag } from "./object_drag.js";
import { roomFor } from "./list_rows.js";
import { memberLine } from "../core/member_lines.js";
import { middleOf } from "../view/object_shapes.js";
import { whyNotNamed } from "../core/unsupported_edits.js";

// How many rows the list has at most: others are found by the search.
const MOST_ROWS = 1000;

const countOf = number => number.toLocaleString("en-US");

// The place of an object's middle, as far as it is not turned.
function placeOfMiddle(object) {
  const [x, y] = middleOf(object);
  return { x: (object.x ?? 0) + x, y: (object.y ?? 0) + y };
}

export class ObjectList {
  constructor(bench, tools) {
    Object.assign(this, { bench, tools, said: "" });
    this.search = byId("object-search");
    this.list = byId("objects");
    this.search.oninput = () => this.show();
    this.search.onkeydown = event => this.key(event);
    this.list.onclick = event => this.click(event);
    this.drag = new ObjectDrag(bench, this.list);
    this.list.ondblclick = event => this.rename(event.target.closest("[data-object]"));
    bench.addEventListener("chosen", () => this.show());
    bench.addEventListener("object chosen", () => this.list.querySelector(".now")?.scrollIntoView({ block: "nearest" }));
    this.show();
  }

  // The layers with objects that the search finds, the one drawn last first: [layer, objects].
  found() {
    const words = this.search.value.toLowerCase().split(" ").filter(word => word);
    const fits = object => {
      const text = `${object.name} ${object.type || object.class || ""} ${object.id}`.toLowerCase();
      return words.every(word => text.includes(word));
    };
    const layers = (this.bench.map?.layers ?? []).filter(layer => layer.type === "objectgroup").reverse();
    const fitting = (objects = []) => (words.length ? objects.filter(fits) : objects);
    return layers.map(layer => [layer, fitting(layer.data.objects)]).filter(([, objects]) => objects.length || !words.length);
  }

  show() {
    const found = this.found();
    const left = found.reduce((sum, [, objects]) => sum + 1 + objects.length, 0) - MOST_ROWS;
    const rows = this.rowsOf(found);
    const said = JSON.stringify([Boolean(this.bench.map), left, rows]);
    if (said !== this.said) this.put(this.made(rows, left));
    this.said = said;
    for (const row of this.list.children) row.classList.toggle("now", this.bench.objectIds.includes(Number(row.dataset.object)));
  }

  put(rows) {
    this.list.replaceChildren(...rows);
    this.search.hidden = !this.list.querySelector("[data-object]") && !this.search.value;
    roomFor(this.list, rows.length);
  }

  // Shows objects that have changed. As a rule their rows say of each what they said before.
  showObjects(changes) {
    const saidOf = (object, layer) => JSON.stringify(this.entryOf(object, layer));
    const isOther = ({ object, before, layer }) => !object || !before || saidOf(object, layer) !== saidOf(before, layer);
    if (changes.some(isOther)) this.show();
  }

  // As many rows as the list has: the layers with their objects.
  rowsOf(found) {
    const rows = [];
    for (const [layer, objects] of found) {
      if (rows.length >= MOST_ROWS) break;
      rows.push(this.headOf(layer, objects));
      for (const object of objects.slice(0, MOST_ROWS - rows.length)) rows.push(this.entryOf(object, layer));
    }
    return rows;
  }

  // What a row tells.
  headOf(layer, objects) {
    const name = `${layer.group ? `${layer.group.data.name} / ` : ""}${layer.data.name || "(no name)"}`;
    return { layer: layer.id, name, kind: `${countOf(objects.length)} of ${countOf((layer.data.objects ?? []).length)}`, isHidden: !layer.isSeen };
  }

  entryOf(object, layer) {
    const isHidden = !layer.isSeen || object.visible === false;
    return { object: object.id, name: object.name || "(no name)", kind: `${object.type || object.class || ""} ${object.id}`.trim(), isHidden };
  }

  // `left` is how many rows there are besides.
  made(rows, left) {
    const shown = rows.map(row => this.row(row));
    if (left > 0) shown.push(element("li", { className: "more", textContent: `and ${countOf(left)} more: search for them` }));
    const none = this.search.value ? "No object is found." : "The map has no object layer.";
    if (!rows.length && this.bench.map) shown.push(element("li", { className: "more", textContent: none }));
    return shown;
  }

  row({ object, layer, name, kind, isHidden }) {
    const data = object === undefined ? { layer } : { object };
    const title = isHidden ? `${name}: hidden` : name;
    const parts = [element("span", { className: "name", textContent: name }), element("span", { className: "kind", textContent: kind })];
    const row = element("li", { data, title }, ...parts);
    row.classList.toggle("head", object === undefined);
    row.classList.toggle("hidden", isHidden);
    return row;
  }

  click(event) {
    const row = event.target.closest("li");
    if (row?.dataset.layer) this.bench.chooseLayer(Number(row.dataset.layer));
    if (row?.dataset.object && (event.shiftKey || event.ctrlKey)) this.turn(Number(row.dataset.object));
    else if (row?.dataset.object) this.choose(Number(row.dataset.object));
  }

  // Chooses an object besides the others, or not any more.
  turn(id) {
    const { bench, tools } = this;
    if (tools.name !== "objects") tools.choose("objects");
    bench.chooseObjects(bench.objectIds.includes(id) ? bench.objectIds.filter(each => each !== id) : [...bench.objectIds, id]);
  }

  // Asks for another name of the object of a row.
  async rename(row) {
    const { bench } = this;
    const id = Number(row?.dataset.object);
    const value = bench.map?.object(id)?.object.name ?? "";
    if (!row || bench.barsChosen("renamed")) return;
    if (whyNotNamed(value)) return void bench.say(`This name is not changed here. ${whyNotNamed(value)}`);
    const field = { name: "name", label: "Name", value, kind: KINDS.label };
    await ask("Rename an object", [field], ["OK"], ({ name }) => bench.attempt([memberLine(`object:${id}`, "name", name)]));
  }

  renameChosen() {
    const { objectId } = this.bench;
    if (objectId !== null) this.rename({ dataset: { object: objectId } });
  }

  // Chooses an object, with the tool that shows it, and moves the view to it where it is not seen.
  choose(id) {
    const { bench, tools } = this;
    if (tools.name !== "objects") tools.choose("objects");
    bench.chooseObject(id);
    const { view } = bench;
    const { object, layer } = bench.chosenObject;
    const [x, y] = bench.overlay.screenPlace(placeOfMiddle(bench.overlay.shapeOf(object)), layer);
    if (x > 0 && y > 0 && x < view.canvas.width && y < view.canvas.height) return;
    view.pan(Math.round(view.canvas.width / 2 - x), Math.round(view.canvas.height / 2 - y));
  }

  key(event) {
    const first = this.list.querySelector("[data-object]");
    if (event.key === "Enter" && first) this.choose(Number(first.dataset.object));
    else if (event.key === "Escape" && this.search.value === "") this.search.blur();
    else if (event.key === "Escape") this.search.value = "";
    else return;
    event.preventDefault();
    this.show();
  }
}
