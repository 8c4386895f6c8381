// SPDX-License-Identifier: MIT OR Apache-2.0
// What an object has beside its properties, in rows of the table: its name and class, its text, its tile, its place, size and rotation, and
// whether it is seen. The numbers follow the hand while it is dragged.
import { button, element } from "./dom.js";
import { fieldFor, numberField } from "./fields.js";
import { isInherited } from "../core/inherited.js";
import { numberKind } from "../core/kinds.js";
import { memberLine } from "../core/member_lines.js";
import { MAX_COORDINATE, MAX_PIXELS } from "../../js/limits.js";
import { MIXED, showMixed, shownOf } from "./shared_values.js";
import { cellOf, rowOf } from "./table_rows.js";
import { TextRows } from "./text_rows.js";
import { ALIGNMENTS, align } from "../tools/alignments.js";
import { wordsOf } from "../core/tile_words.js";

const COORDINATE = numberKind(-MAX_COORDINATE, MAX_COORDINATE, 1);
const LENGTH = numberKind(0, MAX_PIXELS, 1);
const PARTS = { place: [["x", "x"], ["y", "y"]], size: [["width", "w"], ["height", "h"]] };

// Has a row grey where the object has all of these members of its template, and each field where it has its own member of that.
function ofTemplate(data, row, ...names) {
  const isGrey = names.map(name => isInherited(data, name));
  row.element.classList.toggle("usual", isGrey.every(each => each));
  row.fields.forEach((field, at) => field.box.classList.toggle("usual", isGrey[at] ?? isGrey[0]));
  return row;
}

export class ObjectRows {
  // `panel` is the panel of the properties, which keeps rows and sends lines.
  constructor(panel) {
    Object.assign(this, { panel, bench: panel.bench, textRows: new TextRows(panel) });
    this.bench.addEventListener("dragged", () => this.follow());
  }

  rows(owner) {
    const { data } = owner;
    const { panel } = this;
    // Tiled 1.9 has it elsewhere.
    const kind = !data.type && data.class ? "class" : "type";
    return [
      ...(data.template ? [this.templateRow(data)] : []),
      ofTemplate(data, panel.memberRow(owner, "name", "name", data.name ?? ""), "name"),
      ofTemplate(data, panel.memberRow(owner, "class", kind, data[kind] ?? ""), kind),
      ...(data.text ? this.textRows.rows(owner).map(row => ofTemplate(data, row, "text")) : []),
      this.partRow(owner, "place"),
      ofTemplate(data, this.partRow(owner, "size"), "width", "height"),
      ofTemplate(data, this.rotationRow(owner), "rotation"),
      ofTemplate(data, this.visibleRow(owner), "visible"),
      ...(data.gid ? [ofTemplate(data, this.tileRow(owner), "gid")] : []),
      ...(owner.all.length > 1 && !this.bench.map.projection.isIsometric ? [this.alignRow(owner)] : []),
    ];
  }

  // The template, whose values are grey; where its file is not there, they are not known.
  templateRow({ template }) {
    return this.panel.fact("template", template, this.bench.editor.templates.has(template) ? "" : "Its file is not there: choose it, too.");
  }

  // Two numbers, beside one another.
  partRow(owner, name) {
    const { word, data } = owner;
    const parts = PARTS[name];
    const values = parts.map(([part]) => shownOf(owner, part, data[part] ?? 0));
    const kind = name === "place" ? COORDINATE : LENGTH;
    return this.panel.kept(` ${word} ${name}`, values, () => {
      const fields = parts.map(([part], at) => numberField(kind, values[at], text => this.setPart(name, part, Number(text))));
      fields.forEach((field, at) => Object.assign(field.input.dataset, { key: ` ${parts[at][0]}`, owner: word }));
      fields.forEach((field, at) => showMixed(field, owner, parts[at][0]));
      return { element: rowOf(name, "", "in pixels", cellOf(fields, parts.map(part => part[1]))), fields };
    });
  }

  // The line that moves or sizes an object takes whole numbers, and where it leaves a whole part as it is, the fraction comes back.
  setPart(name, part, value) {
    const lineOf = ({ word, data }) => {
      const all = PARTS[name].map(([each]) => (each === part ? value : data[each] ?? 0));
      const isWhole = [...all, data[part] ?? 0].every(Number.isInteger);
      if (!isWhole) return memberLine(word, part, value);
      return `object ${name === "place" ? "move" : "resize"} ${data.id} ${all.map(Math.floor).join(" ")}`;
    };
    return this.panel.sendEach(lineOf, name === "place" ? "Move Objects" : "Resize Objects");
  }

  rotationRow(owner) {
    const { word, data } = owner;
    const value = shownOf(owner, "rotation", data.rotation ?? 0);
    return this.panel.kept(` ${word} rotation`, [value], () => {
      const field = numberField(COORDINATE, value, text => this.panel.sendEach(each => memberLine(each.word, "rotation", Number(text)), "Rotate Objects"));
      showMixed(field, owner, "rotation");
      Object.assign(field.input.dataset, { key: " rotation", owner: word });
      return { element: rowOf("rotation", "", "in degrees, clockwise", cellOf([field])), fields: [field] };
    });
  }

  visibleRow(owner) {
    const { word, data } = owner;
    const value = shownOf(owner, "visible", data.visible !== false);
    return this.panel.kept(` ${word} visible`, [value], () => {
      const field = fieldFor("bool", value, text => this.panel.sendEach(each => memberLine(each.word, "visible", text === "true"), "Show Objects"));
      showMixed(field, owner, "visible");
      Object.assign(field.input.dataset, { key: " visible", owner: word });
      return { element: rowOf("visible", "", "", cellOf([field])), fields: [field] };
    });
  }

  // The tile of a tile object, and a button that gives it the one in hand.
  tileRow({ word, data, mixed }) {
    const text = mixed.has("gid") ? MIXED : wordsOf(data.gid, this.bench.tilesets);
    return this.panel.kept(` ${word} tile ${text}`, [], () => {
      const words = element("span", { textContent: text });
      const take = button("From hand", "Give it the tile of the palette that is in hand, with its flips", () => this.takeTile(), { id: "take-tile" });
      return { element: rowOf("tile", "", "", element("td", { colSpan: 2 }, element("div", { className: "value" }, words, take))), fields: [] };
    });
  }

  // Buttons that put several objects into one line.
  alignRow({ word }) {
    return this.panel.kept(` ${word} align`, [], () => {
      const buttons = Object.entries(ALIGNMENTS).map(([how, [sign, words]]) => button(sign, words, () => align(this.bench, how), { id: `align-${how}` }));
      return { element: rowOf("align", "", "", element("td", { colSpan: 2 }, element("div", { className: "aligns" }, ...buttons))), fields: [] };
    });
  }

  async takeTile() {
    const { bench, panel } = this;
    const why = bench.carried.bars() ? null : await panel.sendEach(each => memberLine(each.word, "gid", bench.fillValue), "Set tile");
    if (why) bench.say(why);
  }

  // The numbers of the object that is dragged; behind the drag those that the map has.
  follow() {
    const { dragged } = this.bench.overlay;
    if (!dragged) return this.panel.show();
    for (const [name, members] of [...Object.entries(PARTS).map(([row, parts]) => [row, parts.map(([part]) => part)]), ["rotation", ["rotation"]]]) {
      const fields = this.panel.rows.get(` object:${dragged.id} ${name}`)?.fields ?? [];
      members.forEach((member, at) => dragged[member] !== undefined && fields[at]?.update(String(dragged[member])));
    }
    return null;
  }
}
