// SPDX-License-Identifier: MIT OR Apache-2.0
// What a layer has beside its properties, in rows of the table: its name, its class, whether it is seen and locked, its opacity, tint, offset
// and parallax, and of an image layer the image. What is as by default is grey.
import { button } from "./dom.js";
import { colourField, fieldFor, numberField, textField } from "./fields.js";
import { KINDS, numberKind, orNothing } from "../core/kinds.js";
import { memberLine, memberRemoval, renameLine } from "../core/member_lines.js";
import { MAX_COORDINATE } from "../../js/limits.js";
import { SliderField } from "./slider_field.js";
import { cellOf, rowOf } from "./table_rows.js";
import { lockLine } from "../tools/barred_layers.js";
import { whyNotNamed } from "../core/unsupported_edits.js";

// What a member is where the file does not have it. Of those that Tiled writes only where they are otherwise, the default is set by taking
// the member out.
const USUAL = { opacity: 1, offsetx: 0, offsety: 0, parallaxx: 1, parallaxy: 1, tintcolor: "", repeatx: false, repeaty: false, image: "" };
const WRITTEN = new Set(["opacity", "image"]);
const IMAGE = /\.(png|jpe?g|gif|webp|bmp)$/i;
const TINT = orNothing(KINDS.colour);
const SHARE = numberKind(0, 1, 0.1);

// The line that gives a member of a layer a value.
const lineFor = (word, member, value) => (value === USUAL[member] && !WRITTEN.has(member) ? memberRemoval(word, member) : memberLine(word, member, value));

const isUsual = ({ member, value, usual = USUAL[member] }) => value === String(usual);

// A colour of a file, as fields have it.
const spelledColour = colour => `#${colour.replace("#", "").toLowerCase()}`;

export class LayerRows {
  // `panel` is the panel of the properties, which keeps rows and sends lines.
  constructor(panel) {
    Object.assign(this, { panel, bench: panel.bench, run: null, isSliding: false });
    // A drag of a slider is one step, up to the next line that is not of it.
    this.bench.editor.addEventListener("done", () => this.isSliding || (this.run = null));
  }

  rows(owner, layer) {
    const { word, data } = owner;
    const { panel } = this;
    return [
      this.nameRow(word, layer),
      panel.classRow(owner),
      this.checkRow(word, "visible", data.visible !== false, true, isOn => `layer show ${layer.id} ${isOn ? "yes" : "no"}`),
      this.checkRow(word, "locked", data.locked === true, false, isOn => lockLine(layer, isOn)),
      this.opacityRow(word, data),
      this.tintRow(word, data),
      this.pairRow(word, data, "offset", "in pixels", 1),
      this.pairRow(word, data, "parallax", "how far it moves where the map moves by 1", 0.1),
      ...(layer.type === "imagelayer" ? [this.imageRow(word, data), this.repeatRow(word, data)] : []),
    ];
  }

  // A row with the fields of some parts: { member, value, usual, label, field }, of which `field()` makes the field.
  row(word, name, title, parts, more = []) {
    const made = this.panel.kept(` ${word} ${name}`, parts.map(part => part.value), () => {
      const fields = parts.map(part => part.field());
      parts.forEach((part, at) => Object.assign(fields[at].input.dataset, { key: ` ${part.member}`, owner: word }));
      return { element: rowOf(name, "", title, cellOf(fields, parts.map(part => part.label), 2 - more.length), ...more.map(each => each())), fields };
    });
    parts.forEach((part, at) => made.fields[at].box.classList.toggle("usual", isUsual(part)));
    made.element.classList.toggle("usual", parts.every(isUsual));
    return made;
  }

  take(word, member) {
    return value => this.panel.send(lineFor(word, member, value));
  }

  nameRow(word, layer) {
    const value = layer.data.name ?? "";
    const why = whyNotNamed(value);
    if (why) return this.panel.fact("name", value, why);
    const field = () => textField(KINDS.label, value, text => this.panel.send(renameLine(layer, text)));
    return this.row(word, "name", "", [{ member: "name", value, usual: "", field }]);
  }

  checkPart(member, isOn, usual, lineOf, label = "") {
    const value = String(isOn);
    return { member, value, usual, label, field: () => fieldFor("bool", value, text => this.panel.send(lineOf(text === "true"))) };
  }

  checkRow(word, name, ...words) {
    return this.row(word, name, "", [this.checkPart(name, ...words)]);
  }

  opacityRow(word, data) {
    const value = String(data.opacity ?? USUAL.opacity);
    const slider = { least: 0, most: 1, slide: text => this.slide(word, "opacity", Number(text)), end: () => (this.run = null) };
    const take = this.take(word, "opacity");
    const field = () => new SliderField(SHARE, value, text => take(Number(text)), slider);
    return this.row(word, "opacity", "0 is clear, 1 is full", [{ member: "opacity", value, field }]);
  }

  // Sets a value of a drag: what is behind its first line follows that. Back where the drag began its step is gone, and a line that follows
  // would join the step before it.
  slide(word, member, value) {
    const { bench } = this;
    const key = `${word} ${member}`;
    const line = memberLine(word, member, value, this.run === key);
    this.run = key;
    this.isSliding = true;
    const done = bench.sayRefusal(bench.editor.doLines([line]));
    this.isSliding = false;
    if (!done.isAccepted || done.told.became === "gone") this.run = null;
    return done.isAccepted;
  }

  tintRow(word, data) {
    const value = data.tintcolor ? spelledColour(data.tintcolor) : USUAL.tintcolor;
    const field = () => {
      const made = colourField(TINT, value, this.take(word, "tintcolor"));
      made.input.placeholder = "none";
      return made;
    };
    const none = () => button("×", "No tint", () => this.bench.act([memberRemoval(word, "tintcolor")]), { className: "no-tint" });
    const row = this.row(word, "tint", "The colours of the layer are multiplied by it", [{ member: "tintcolor", value, field }], [none]);
    row.element.querySelector(".no-tint").disabled = value === "";
    return row;
  }

  // The two members of a name, as `offsetx` and `offsety`.
  pairRow(word, data, name, title, step) {
    const kind = numberKind(-MAX_COORDINATE, MAX_COORDINATE, step);
    const parts = ["x", "y"].map(label => {
      const member = `${name}${label}`;
      const value = String(data[member] ?? USUAL[member]);
      const take = this.take(word, member);
      return { member, value, label, field: () => numberField(kind, value, text => take(Number(text))) };
    });
    return this.row(word, name, title, parts);
  }

  imageRow(word, data) {
    const value = data.image ?? USUAL.image;
    const files = () => ({ ...this.panel.around.files(), fits: path => IMAGE.test(path) });
    const field = () => fieldFor("file", value, this.take(word, "image"), { files }, KINDS.label);
    return this.row(word, "image", "Its file, from the folder of the map", [{ member: "image", value, field }]);
  }

  repeatRow(word, data) {
    const part = label => {
      const member = `repeat${label}`;
      return this.checkPart(member, data[member] === true, false, isOn => lineFor(word, member, isOn), label);
    };
    return this.row(word, "repeat", "Over the whole map, to the sides and up and down", [part("x"), part("y")]);
  }
}
