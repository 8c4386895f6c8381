// SPDX-License-Identifier: MIT OR Apache-2.0
// The lines that make a copy of a layer with all that is in it, and those that put its cells or objects onto another one.
import { bytesTooMany, membersLine, memberLine, objectLine } from "../core/member_lines.js";
import { said } from "../../js/json_values.js";
import { copyOf } from "../core/whole_objects.js";
import { KINDS } from "../core/kinds.js";
import { lineOf } from "../core/map_model.js";
import { layersIn } from "./layer_places.js";
import { partsOf } from "./stroke.js";

const KIND_WORDS = { tilelayer: "tile", objectgroup: "object", imagelayer: "image", group: "group" };
// What a new layer has of itself.
const USUAL = { opacity: 1, visible: true, x: 0, y: 0, offsetx: 0, offsety: 0, parallaxx: 1, parallaxy: 1, image: "", draworder: "topdown" };

const nameOf = object => object.name || `object ${object.id}`;

// The rectangle of the cells of a layer that are not empty, as a block; null where all are.
function blockOf(map, { id }) {
  const { width, height } = map;
  const cells = map.cells(id, 0, 0, width, height);
  let [left, top, right, bottom] = [width, height, -1, -1];
  cells.forEach((value, at) => {
    if (value === 0) return;
    const [x, y] = [at % width, Math.floor(at / width)];
    [left, top, right, bottom] = [Math.min(left, x), Math.min(top, y), Math.max(right, x), Math.max(bottom, y)];
  });
  if (right < 0) return null;
  const [wide, high] = [right - left + 1, bottom - top + 1];
  return { x: left, y: top, width: wide, height: high, values: Array.from(map.cells(id, left, top, wide, high)) };
}

// The lines that put the cells of a layer onto another one, of which others stay.
export function cellLines(map, layer, to) {
  const block = blockOf(map, layer);
  return block ? partsOf({ ...block, layer: to }).map((part, at) => lineOf(part, at > 0)) : [];
}

// The lines that put the objects of a layer on top of those of another one.
export function objectLines(layer, to) {
  const count = to.data.objects?.length ?? 0;
  return (layer.data.objects ?? []).map(({ id }, at) => `object into ${id} ${to.id} ${count + at}`);
}

export class LayerCopy {
  // A copy of a layer under another name. `lines` make it in no group, on top of all, as the layer `id`; `large` has what is too large
  // for a line.
  constructor({ editor, map }, layer, name) {
    Object.assign(this, { editor, map, lines: [], large: "", id: map.data.nextlayerid });
    this.nextId = this.id;
    this.add(layer, name);
  }

  add(layer, name) {
    const id = this.nextId++;
    const isSpelled = KINDS.text.fault(name) === "";
    this.lines.push(`layer add ${KIND_WORDS[layer.type]} ${isSpelled ? name : "Layer"}`);
    if (!isSpelled) this.lines.push(memberLine(`layer:${id}`, "name", name));
    this.addMembers(id, this.editor.layerMembersOf(layer.id));
    if (layer.isTiles) this.lines.push(...cellLines(this.map, layer, id));
    for (const object of layer.data.objects ?? []) this.addObject(id, object);
    layersIn(this.map, layer).forEach((each, place) => this.lines.push(`layer into ${this.add(each, each.data.name ?? "")} ${id} ${place}`));
    return id;
  }

  addMembers(id, { own, properties }) {
    const others = Object.entries(own).filter(([name, value]) => name !== "name" && value !== USUAL[name]);
    if (others.length) this.put(membersLine(`layer:${id}`, Object.fromEntries(others)), "what it has");
    for (const property of properties) this.put(`prop put layer:${id} ${said(property, "a property")}`, `its property ${property.name}`);
  }

  addObject(layer, object) {
    this.put(objectLine(layer, copyOf(this.editor.membersOf(object.id))), nameOf(object));
  }

  put(line, words) {
    if (bytesTooMany(line)) this.large ||= words;
    this.lines.push(line);
  }
}
