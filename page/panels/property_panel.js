// SPDX-License-Identifier: MIT OR Apache-2.0
// The properties of the map, of a layer, of an object or of several, in a table; and what else a line can set of these.
import { button, byId, element, mark, putText } from "./dom.js";
import { fieldFor, numberField, textField } from "./fields.js";
import { KINDS, TYPES } from "../core/kinds.js";
import { LayerRows } from "./layer_rows.js";
import { ObjectRows } from "./object_rows.js";
import { memberLine } from "../core/member_lines.js";
import { FIRST, PropertyRows } from "./property_rows.js";
import { saidOf } from "../core/refusals.js";
import { owned, sharedOwner, showMixed, shownOf } from "./shared_values.js";
import { cellOf, rowOf } from "./table_rows.js";
import { wordsOfShape } from "../view/object_shapes.js";
import { unlockLines, whyLocked } from "../tools/barred_layers.js";
import { whyNotNamed } from "../core/unsupported_edits.js";

const OWNERS = ["map", "layer", "object"];
// The type of a new property, unless another one is chosen.
const USUAL = "string";
// What the field of a value tells where nothing is typed.
const WANTED = { string: "value", file: "value", class: "class" };
const isChoice = type => type === "bool" || type === "object";

export class PropertyPanel {
  constructor(bench) {
    this.bench = bench;
    this.kind = "map";
    this.rows = new Map();
    for (const kind of OWNERS) byId(`of-${kind}`).onclick = () => this.choose(kind);
    this.body = element("tbody");
    this.around = {
      map: () => bench.map,
      pick: take => bench.pickObject(take),
      files: () => ({ place: bench.editor.place, folder: bench.editor.folder }),
    };
    this.last = this.newRow();
    this.layerRows = new LayerRows(this);
    this.objectRows = new ObjectRows(this);
    this.propertyRows = new PropertyRows(this);
    const columns = Array.from({ length: 3 }, () => element("col"));
    byId("properties").querySelector("table").append(element("colgroup", {}, ...columns), this.body);
    this.fields = byId("properties").querySelector("fieldset");
    this.fields.append(this.last);
    byId("why-locked").append(button("Unlock it", "Unlock the layer, so that its objects are changed", () => this.unlock(), { id: "unlock" }));
    // The panel follows what is chosen.
    bench.addEventListener("layer chosen", () => this.choose("layer"));
    bench.addEventListener("object chosen", () => this.choose(bench.objectId !== null ? "object" : this.kind === "object" ? "layer" : this.kind));
  }

  choose(kind) {
    this.kind = kind;
    this.shownDocument = this.bench.editor.openDocuments.active;
    this.show();
  }

  // The owner as a line spells it, its data and its title; null where none is chosen. Of several objects all that they share, with the names
  // of members that they do not share as `mixed`. `all` has each that a value is set of, { word, data }.
  owner() {
    const { map, layer } = this.bench;
    if (!map) return null;
    if (this.kind === "map") return owned("map", map.data, "");
    if (this.kind === "layer") return layer && owned(`layer:${layer.id}`, layer.data, layer.data.name || "(no name)");
    const objects = this.bench.chosenObjects.map(({ object }) => object);
    if (objects.length > 1) return sharedOwner(objects);
    return objects.length ? owned(`object:${objects[0].id}`, objects[0], objects[0].name || `Object ${objects[0].id}`) : null;
  }

  show() {
    const { active } = this.bench.editor.openDocuments;
    if (active !== this.shownDocument) this.kind = "map";
    this.shownDocument = active;
    const owner = this.owner();
    for (const kind of OWNERS) byId(`of-${kind}`).classList.toggle("on", kind === this.kind);
    const none = this.kind === "object" ? "No object is chosen: click at one with the tool Objects." : "Nothing is open.";
    putText(byId("owner"), owner?.title ?? none);
    byId("owner").classList.toggle("none", !owner);
    byId("owner").title = owner?.title ?? "";
    const shape = this.kind === "object" && owner?.all.length === 1 ? ` · ${wordsOfShape(owner.data)}` : "";
    if (byId("owner").dataset.shape !== shape) byId("owner").dataset.shape = shape;
    this.last.hidden = !owner;
    this.showLocked();
    if (owner?.word !== this.shownOwner) this.unmark();
    this.shownOwner = owner?.word;
    this.putRows(owner ? [...this.factRows(owner), ...this.propertyRows.rows(owner)] : []);
  }

  // Why nothing of the objects that the table is about is changed; "" where all is.
  get whyLocked() {
    const [layer] = this.kind === "object" ? this.bench.lockedLayers : [];
    return layer ? whyLocked(layer) : "";
  }

  // The fields of objects on a locked layer are grey, and it is said why.
  showLocked() {
    const why = this.whyLocked;
    byId("why-locked").hidden = why === "";
    putText(byId("why-locked").firstElementChild, why);
    this.fields.disabled = why !== "";
  }

  unlock() {
    const lines = new Set(this.bench.lockedLayers.flatMap(unlockLines));
    return lines.size > 1 ? this.bench.doAsOne("Unlock Layers || unlock layers", [...lines]) : this.bench.act([...lines]);
  }

  // Puts rows into the table. One that stands there already stays as it is, with what is typed in it.
  putRows(rows) {
    this.rows = new Map(rows.map(row => [row.key, row]));
    const wanted = rows.map(row => row.element);
    for (const old of [...this.body.children]) if (!wanted.includes(old)) old.remove();
    wanted.forEach((row, at) => this.body.children[at] === row || this.body.insertBefore(row, this.body.children[at] ?? null));
  }

  // A row that is there with this key, or a new one. `values` go into its fields.
  kept(key, values, make) {
    const row = this.rows.get(key) ?? make();
    row.fields.forEach((field, at) => field.update(values[at]));
    return { ...row, key };
  }

  // ---- what is no property
  // The size and the class of the map; what a layer has, or an object.
  factRows(owner) {
    const { data } = owner;
    if (this.kind === "map") return [this.fact("size", this.sizeOf(data), ""), this.classRow(owner)];
    if (this.kind === "layer") return this.layerRows.rows(owner, this.bench.layer);
    return this.objectRows.rows(owner);
  }

  // The size of the map. One that grows says so.
  sizeOf({ width, height }) {
    return `${width} × ${height}${this.bench.growth.isInfinite ? ", infinite" : ""}`;
  }

  // The class of the map, or of a layer.
  classRow(owner) {
    return this.memberRow(owner, "class", "class", owner.data.class ?? "");
  }

  // A text or a number, which is an own member.
  memberRow(owner, name, member, value) {
    const { word } = owner;
    const isNumber = typeof value === "number";
    const why = isNumber ? "" : whyNotNamed(value);
    if (why) return this.fact(name, value, why);
    return this.kept(` ${word} ${member}`, [shownOf(owner, member, value)], () => {
      const take = text => this.sendEach(each => memberLine(each.word, member, isNumber ? Number(text) : text), `Set ${name}`);
      const field = isNumber ? numberField(KINDS.coordinate, String(value), take) : textField(KINDS.label, value, take);
      showMixed(field, owner, member);
      Object.assign(field.input.dataset, { key: ` ${name}`, owner: word });
      return { element: rowOf(name, "", isNumber ? "in degrees, clockwise" : "", cellOf([field])), fields: [field] };
    });
  }

  fact(name, text, why) {
    const cell = element("td", { colSpan: 2 }, element("span", { textContent: text }), element("small", { className: "barred", textContent: why }));
    return this.kept(` ${name} ${text} ${why}`, [], () => ({ element: rowOf(name, "", why, cell), fields: [] }));
  }

  // Does for a field a line for each thing that the table is about, as one step with a name where they are several: gives null, or why it was
  // refused.
  async sendEach(lineOf, name) {
    if (this.whyLocked) return this.whyLocked;
    const lines = this.owner().all.map(lineOf);
    if (lines.length === 1) return this.send(lines[0]);
    const done = this.bench.doAsOne(`${name} || ${name.toLowerCase()}`, lines);
    return done.isAccepted ? null : saidOf(done);
  }

  // Does a line for a field: gives null, or why it was refused.
  async send(line) {
    if (this.whyLocked) return this.whyLocked;
    return (await this.bench.attempt([line]))?.words ?? null;
  }

  // ---- a new property
  // It stands below the table, which scrolls: its name, its value and its type, in the order of Tab.
  newRow() {
    const name = element("input", { placeholder: "name", id: "new-name", autocomplete: "off", oninput: () => mark(name, "") });
    const types = Object.keys(TYPES).map(each => element("option", { textContent: each }));
    const type = element("select", { id: "new-type", title: "The type of the new property", onchange: () => this.newField(this.typed()) }, ...types);
    type.ariaLabel = "type";
    const box = element("div", { className: "new-value" });
    Object.assign(this, { name, type, box });
    const add = button("+", "Set this property", () => this.add(), { id: "add-property" });
    for (const field of [name, type]) field.onkeydown = event => this.newKey(event);
    this.newField();
    return element("div", { className: "new" }, element("div", {}, name), box, type, add);
  }

  // What was typed as the value; a choice is nothing typed.
  typed() {
    return isChoice(this.fieldType) ? "" : this.field.input.value;
  }

  // The field for a value of the type that is chosen, with what was typed for another one.
  newField(typed = "") {
    const type = this.fieldType = this.type.value;
    const first = String(FIRST[type] ?? "");
    this.field = fieldFor(type, isChoice(type) ? first : "", () => null, this.around);
    const { input } = this.field;
    Object.assign(input, { id: "new-value", placeholder: WANTED[type] ?? first, onkeydown: event => this.newKey(event), onchange: null });
    if (!isChoice(type)) input.value = typed;
    this.box.replaceChildren(this.field.box);
  }

  // In a text Shift and Enter begin another line.
  newKey(event) {
    if (event.key === "Enter" && event.shiftKey && event.target.matches("textarea")) return;
    if (event.key === "Enter") {
      event.preventDefault();
      this.add();
    } else if (event.key === "Escape") {
      this.unmark();
      event.target.blur();
    }
  }

  unmark() {
    for (const input of [this.name, this.field.input]) mark(input, "");
  }

  async add() {
    const { name, type, field } = this;
    const kind = TYPES[type.value];
    const text = field.chosen?.() ?? kind.spelled(field.input.value || String(FIRST[type.value] ?? ""));
    const faults = [[name, KINDS.key.fault(name.value)], [field.input, kind.fault(text)]];
    for (const [input, fault] of faults) mark(input, fault);
    const wrong = faults.find(([, fault]) => fault);
    if (wrong) return wrong[0].focus();
    const why = await this.propertyRows.make(name.value, type.value, text);
    if (why) return mark(name, why);
    this.bench.bubble.hide();
    name.value = "";
    // The keys stay in the row, for the next property.
    if ([field.input, type].includes(document.activeElement)) name.focus();
    type.value = USUAL;
    return this.newField();
  }
}
