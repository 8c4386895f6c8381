// SPDX-License-Identifier: MIT OR Apache-2.0
// The layers of a document, and their objects, as they are at each call.
import { replaced, tileValue } from "./blocks.js";
import { refusedCall } from "./faults.js";
import * as json from "./json_values.js";
import { MAX_GROUPS, MAX_LAYERS } from "./limits.js";
import { KINDS } from "./module.js";
import { linesOf, plain, selecting } from "./new_layers.js";
import { given, hasFraction, length, lineOf, looksOf, pixels, placeOf, putLine, textOf } from "./new_objects.js";
import { Owner, WithOwnMembers, putMembers, refuseSettings, setMember, setOrRemove } from "./own_members.js";
import { Properties } from "./properties.js";
import { BASE } from "./rows.js";
import { notesOne } from "./tiled_maps.js";
import { absent, tileOf } from "./tilesets.js";
import * as words from "./words.js";

// The kinds of layers, by the words of Tiled's files; and all of them, each of which a line adds.
const TYPES = { tilelayer: "tile", objectgroup: "object", group: "group", imagelayer: "image" };
const ALL_KINDS = Object.values(KINDS);
const INSPECT = Symbol.for("nodejs.util.inspect.custom");

// What a document has under an id: it is looked up at each call.
class View extends WithOwnMembers {
  #document;

  constructor(document, id) {
    super();
    this.#document = document;
    this.id = id;
    // So that a name that it has not is never set silently.
    Object.freeze(this);
  }

  /** The document that it belongs to. */
  get document() {
    return this.#document;
  }

  // What the map says of it, of a layer without what is in it.
  get _now() {
    const members = this.document._read(this._subject, this.id);
    if (members === null) {
      throw this._missing();
    }
    return members;
  }

  get _owner() {
    return new Owner(this.document, this._subject, this.id, () => this._now);
  }

  /** All that the map says of it, without cells: a copy. */
  get members() {
    return this._whole;
  }

  /** What JSON has of it: its members. */
  toJSON() {
    return this.members;
  }

  /** Its id. */
  valueOf() {
    return this.id;
  }

  [INSPECT]() {
    return `<${this}>`;
  }
}

/**
 * An object of a document, by its id. It stays the same however the map changes; where it was removed, a
 * call throws Refused, 34. Places and sizes are in pixels.
 */
export class MapObject extends View {
  get [words.OBJECT]() {
    return this.id;
  }

  get _subject() {
    return "object";
  }

  get _whole() {
    return this._now;
  }

  _missing() {
    return refusedCall(34, `MapObject ${this.id}`);
  }

  get layer() {
    const id = this.document._number("object_layer", this.id);
    if (id === null) {
      throw this._missing();
    }
    return new Layer(this.document, id);
  }

  get name() {
    return this._now.name ?? "";
  }

  set name(name) {
    setMember(this, "name", json.text(name, "the name of an object"));
  }

  get className() {
    return this._now.type ?? "";
  }

  set className(name) {
    setMember(this, "type", json.text(name, "the class of an object"));
  }

  get type() {
    return this.className;
  }

  get isPoint() {
    return this._now.point === true;
  }

  get x() {
    return this._now.x ?? 0;
  }

  set x(x) {
    setMember(this, "x", pixels(x, "x"));
  }

  get y() {
    return this._now.y ?? 0;
  }

  set y(y) {
    setMember(this, "y", pixels(y, "y"));
  }

  get width() {
    return this._now.width ?? 0;
  }

  set width(width) {
    setMember(this, "width", length(width, "a width"));
  }

  get height() {
    return this._now.height ?? 0;
  }

  set height(height) {
    setMember(this, "height", length(height, "a height"));
  }

  get rotation() {
    return this._now.rotation ?? 0;
  }

  set rotation(degrees) {
    setMember(this, "rotation", json.number(degrees, "the rotation of an object"));
  }

  get visible() {
    return this._now.visible ?? true;
  }

  set visible(visible) {
    setMember(this, "visible", Boolean(visible));
  }

  get tile() {
    const { gid } = this._now;
    return gid ? tileOf(this.document, gid) : null;
  }

  // A tile, the value of a cell, or null.
  set tile(tile) {
    const value = tile === null ? 0 : words.number(tile?.value ?? tile, "the tile of an object");
    setOrRemove(this, "gid", value === 0 ? null : value);
  }

  get properties() {
    return new Properties(this.document, "object", this);
  }

  move(x, y, options) {
    const { merge } = words.options(options, { merge: false });
    this._setPlace(`move${merge ? "+" : ""}`, { x: pixels(x, "x"), y: pixels(y, "y") }, merge);
  }

  resize(width, height) {
    this._setPlace("resize", { width: length(width, "a width"), height: length(height, "a height") });
  }

  // Says the line of a move or a size; that of own members where a number of it is not whole, or was not.
  _setPlace(verb, place, merge = false) {
    this.document._enter();
    const text = this.document.editor._text("object", this.id) ?? "{}";
    if (Object.values(place).some(hasFraction) || notesOne(text, Object.keys(place))) {
      putMembers(this, place, merge);
    } else {
      this.document._edit(`object ${verb} ${this.id} ${Object.values(place).join(" ")}`);
    }
  }

  moveInto(layer, place = null) {
    const at = place === null ? null : words.number(place, "a place");
    const goal = this.document._idOf(layer);
    this.document._edit(`object into ${this.id} ${goal} ${at ?? this._othersIn(goal)}`);
  }

  // How many other objects a layer has.
  _othersIn(layer) {
    const isThere = this.document._number("object_layer", this.id) === layer;
    return (this.document._count("object_ids", layer) ?? 0) - (isThere ? 1 : 0);
  }

  remove() {
    this.document._edit(`object remove ${this.id}`);
  }

  toString() {
    const described = this.document._peek(() => `${this.name} at ${this.x}, ${this.y}`);
    return described === null ? `MapObject ${this.id}` : `MapObject ${this.id} ${described}`;
  }
}

refuseSettings(View, "an object or a layer", { members: "setMembers(members) does" });
refuseSettings(MapObject, "an object", {
  type: "className does", isPoint: 'setMember("point", true) does',
});

/** The first of these layers or objects that has a name: each is looked at. Null where there is none. */
function firstNamed(document, subject, ids, name) {
  return ids.find((id) => (document._read(subject, id).name ?? "") === name) ?? null;
}

/** The objects of a layer, or of a whole document: in drawing order, by id or by name. */
export class Objects {
  #document;
  #layer;

  constructor(document, layer = null) {
    this.#document = document;
    this.#layer = layer;
    Object.freeze(this);
  }

  get _ids() {
    return this.#document._ids("object_ids", this.#layer ?? 0);
  }

  *[Symbol.iterator]() {
    for (const id of this._ids) {
      yield new MapObject(this.#document, id);
    }
  }

  get size() {
    return this.#document._count("object_ids", this.#layer ?? 0) ?? 0;
  }

  // The id of what a key stands for; null where there is no such object here.
  _found(key) {
    if (key instanceof MapObject) {
      return key.document === this.#document ? this._found(key.id) : null;
    }
    if (typeof key === "string") {
      const id = this.#document._find("object", key);
      const isHere = id === null || this.#layer === null || this._has(id);
      return isHere ? id : firstNamed(this.#document, "object", this._ids, key);
    }
    return words.isId(key) && this._has(key) ? key : null;
  }

  _has(id) {
    const layer = this.#document._number("object_layer", id);
    return layer !== null && (this.#layer === null || this.#layer === layer);
  }

  get(key) {
    const found = this.find(key);
    if (found === null) {
      throw absent("object", key, this._ids);
    }
    return found;
  }

  find(key) {
    const id = this._found(key);
    return id === null ? null : new MapObject(this.#document, id);
  }

  has(key) {
    return this._found(key) !== null;
  }

  add(name, x, y, width = 0, height = 0, options) {
    const shown = words.options(options, {
      point: false, ellipse: false, polygon: null, polyline: null, text: null, tile: null, className: "", rotation: 0,
      visible: true, properties: null,
    });
    if (words.isPlain(width) || words.isPlain(height)) {
      throw new TypeError("options stand behind a width and a height: add(name, x, y, 0, 0, { .. })");
    }
    const layer = this._ownLayer;
    const place = placeOf(x, y, width, height);
    const line = lineOf(layer, name, place, { ...given(shown), ...looksOf(shown) });
    return new MapObject(this.#document, this.#document._add("object", line));
  }

  put(members) {
    const [layer, text] = [this._ownLayer, textOf(members)];
    const last = this.#document._add("object", putLine(layer, text));
    return new MapObject(this.#document, JSON.parse(text).id ?? last);
  }

  // The layer that an object is added to. Throws RangeError for the objects of a whole document.
  get _ownLayer() {
    if (this.#layer === null) {
      throw new RangeError("an object is added to a layer: document.layers.get(..).objects.add(..)");
    }
    return this.#layer;
  }

  /** What JSON has of them: the list of all. */
  toJSON() {
    return [...this];
  }

  toString() {
    const place = this.#layer === null ? "all layers" : `layer ${this.#layer}`;
    return `Objects of ${place} of ${this.#document.name}`;
  }

  [INSPECT]() {
    return `<${this}>`;
  }
}

// The first and last columns and rows that have cells of which something holds; where none has, the first are behind the last.
function boundsOf(cells, wide, holds) {
  const bounds = { left: Infinity, top: Infinity, right: -1, bottom: -1 };
  for (const [at, value] of cells.entries()) {
    if (holds(value)) {
      const [x, y] = [at % wide, Math.floor(at / wide)];
      Object.assign(bounds, { left: Math.min(bounds.left, x), right: Math.max(bounds.right, x) });
      Object.assign(bounds, { top: Math.min(bounds.top, y), bottom: y });
    }
  }
  return bounds;
}

/**
 * A layer of a document, by its id. It stays the same however the map changes; where it was removed, a
 * call throws Refused, 30.
 */
export class Layer extends View {
  get _subject() {
    return "layer";
  }

  _missing() {
    return refusedCall(30, `Layer ${this.id}`);
  }

  get _whole() {
    const [members, document] = [this._now, this.document];
    if (members.type === "tilelayer") {
      const { width, height } = document._sizes;
      const encoding = document._encodingOf(this.id);
      Object.assign(members, { width, height }, encoding === undefined ? {} : { encoding });
    } else if (members.type === "objectgroup") {
      members.objects = document._ids("object_ids", this.id).map((id) => document._read("object", id));
    } else if (members.type === "group") {
      members.layers = this.layers._below.map(({ id }) => new Layer(document, id)._whole);
    }
    return members;
  }

  get kind() {
    return TYPES[this._now.type];
  }

  get name() {
    return this._now.name;
  }

  set name(name) {
    this.document._edit(`layer rename ${this.id} ${words.text(name, "the name of a layer")}`);
  }

  get visible() {
    return this._now.visible;
  }

  set visible(visible) {
    this.document._edit(`layer show ${this.id} ${visible ? "yes" : "no"}`);
  }

  get className() {
    return this._now.class ?? "";
  }

  set className(name) {
    setMember(this, "class", json.text(name, "the class of a layer"));
  }

  get opacity() {
    return this._now.opacity ?? 1;
  }

  set opacity(opacity) {
    setMember(this, "opacity", json.number(opacity, "the opacity of a layer"));
  }

  get tint() {
    return this._now.tintcolor ?? null;
  }

  // A text, or null.
  set tint(tint) {
    setOrRemove(this, "tintcolor", tint === null ? null : json.text(tint, "the tint of a layer"));
  }

  get locked() {
    return this._now.locked ?? false;
  }

  set locked(locked) {
    setOrRemove(this, "locked", locked ? true : null);
  }

  get parent() {
    const row = this.document._layerRows.find(({ id }) => id === this.id);
    if (row === undefined) {
      throw this._missing();
    }
    return row.parent === 0 ? null : new Layer(this.document, row.parent);
  }

  get layers() {
    return new Layers(this.document, this.id);
  }

  get objects() {
    return new Objects(this.document, this.id);
  }

  get properties() {
    return new Properties(this.document, "layer", this);
  }

  cells(x = 0, y = 0, width = null, height = null) {
    return this.document._cellsOf(this, x, y, width, height).cells;
  }

  rows(x = 0, y = 0, width = null, height = null) {
    const { cells, wide } = this.document._cellsOf(this, x, y, width, height);
    return Array.from({ length: wide ? cells.length / wide : 0 }, (_, row) => [
      ...cells.subarray(row * wide, (row + 1) * wide),
    ]);
  }

  write(x, y, rows) {
    this.document._write(this, x, y, rows);
  }

  replace(value, other) {
    const [from, to] = [tileValue(value), tileValue(other)];
    const { wide, cells: before } = this.document._cellsOf(this, 0, 0, null, null);
    const { left, top, right, bottom } = boundsOf(before, wide, (cell) => (cell & BASE) === from);
    if (from === to || left > right) {
      return 0;
    }
    const rows = Array.from({ length: bottom - top + 1 }, (_, at) => {
      const start = (top + at) * wide;
      return Array.from(before.subarray(start + left, start + right + 1), (cell) => replaced(cell, from, to));
    });
    this.write(left, top, rows);
    const after = this.cells();
    return before.reduce((count, cell, at) => count + (cell === after[at] ? 0 : 1), 0);
  }

  tile(x, y) {
    const [value] = this.document._cellsOf(this, x, y, 1, 1).cells;
    return value === 0 ? null : tileOf(this.document, value);
  }

  move(place) {
    this.document._edit(`layer move ${this.id} ${words.number(place, "a place")}`);
  }

  moveInto(group, place = null) {
    const at = place === null ? null : words.number(place, "a place");
    const goal = group === null ? 0 : groupOf(this.document, group);
    const others = () => this.document._layerRows.filter(({ id, parent }) => parent === goal && id !== this.id);
    this.document._edit(`layer into ${this.id} ${goal} ${at ?? others().length}`);
  }

  remove() {
    this.document._edit(`layer remove ${this.id}`);
  }

  toString() {
    const members = this.document._peek(() => this._now);
    return members ? `Layer ${this.id} ${TYPES[members.type]} ${members.name}` : `Layer ${this.id}`;
  }
}

// The id of a group. Throws NotFound; RangeError for 0.
function groupOf(document, group) {
  const id = document._idOf(group);
  if (id === 0) {
    throw new RangeError("0 is the id of no layer: null stands for no group");
  }
  return id;
}

/** The layers of a document that are in no group, or those in a group: in drawing order. */
export class Layers {
  #document;
  #group;

  constructor(document, group = null) {
    this.#document = document;
    this.#group = group;
    Object.freeze(this);
  }

  // All of them, with those in groups. Throws Refused where the group was removed.
  get _walked() {
    const rows = this.#document._layerRows;
    if (this.#group === null) {
      return rows;
    }
    if (!rows.some((row) => row.id === this.#group)) {
      throw refusedCall(30, `Layers of ${this.#group}`);
    }
    const groups = new Set([this.#group]);
    return rows.filter((row) => groups.has(row.parent) && groups.add(row.id));
  }

  // Those that stand in no other group.
  get _below() {
    return this._walked.filter((row) => row.parent === (this.#group ?? 0));
  }

  *[Symbol.iterator]() {
    for (const { id } of this._below) {
      yield new Layer(this.#document, id);
    }
  }

  *walk() {
    for (const { id } of this._walked) {
      yield new Layer(this.#document, id);
    }
  }

  get size() {
    return this._below.length;
  }

  // The id of what a key stands for; null where there is no such layer here.
  _found(key) {
    if (key instanceof Layer) {
      return key.document === this.#document ? this._found(key.id) : null;
    }
    if (typeof key === "string") {
      return this._named(key) ?? (key.includes("/") ? this._atPath(key) : null);
    }
    return words.isId(key) && this._has(key) ? key : null;
  }

  // The id of the first layer of a name; null where there is none here.
  _named(name) {
    const id = this.#document._find("layer", name);
    const isHere = id === null || this.#group === null || this._has(id);
    return isHere ? id : firstNamed(this.#document, "layer", this._walked.map((row) => row.id), name);
  }

  // The id of the first layer at a path, the names of groups from here on and its own; null where there is none.
  _atPath(path) {
    const rows = this._walked;
    let ids = new Set([this.#group ?? 0]);
    for (const name of path.split("/")) {
      const fitting = rows.filter((row) => ids.has(row.parent) && this.#document._read("layer", row.id).name === name);
      ids = new Set(fitting.map((row) => row.id));
    }
    const [first = null] = ids;
    return first;
  }

  _has(id) {
    return this.#group === null
      ? this.#document._count("layer", id) !== null
      : this._walked.some((row) => row.id === id);
  }

  get(key) {
    return new Layer(this.#document, this._known(key));
  }

  // The id of what a key stands for. Throws NotFound where there is none.
  _known(key) {
    const id = this._found(key);
    if (id === null) {
      throw absent("layer", key, this._walked.map((row) => row.id));
    }
    return id;
  }

  has(key) {
    return this._found(key) !== null;
  }

  find(name, kind = null) {
    if (kind === null) {
      const id = this._found(name);
      return id === null ? null : new Layer(this.#document, id);
    }
    const said = words.oneOf(kind, ALL_KINDS, "the kind of a layer");
    const first = this.#document._find("layer", name);
    const ids = this._walked.filter((row) => KINDS[row.kind] === said).map((row) => row.id);
    const id = first === null || ids.includes(first) ? first : firstNamed(this.#document, "layer", ids, name);
    return id === null ? null : new Layer(this.#document, id);
  }

  add(kind, name) {
    const said = words.oneOf(kind, ALL_KINDS, "the kind of a layer that is added");
    const line = `layer add ${said} ${words.text(name, "the name of a layer")}`;
    const added = () => new Layer(this.#document, this.#document._add("layer", line));
    if (this.#group === null) {
      return added();
    }
    this._refuseOneMore(said, line);
    const addedIn = () => {
      const layer = added();
      layer.moveInto(this.#group);
      return layer;
    };
    const isAlone = this.#document.status.depth === 0;
    return isAlone ? this.#document.macro("Add Layer", addedIn, { action: "add layer" }) : addedIn();
  }

  put(members, group = null, at = 0) {
    const [layer, place] = [plain(members), words.number(at, "a place")];
    const goal = group === null ? this.#group ?? 0 : groupOf(this.#document, group);
    const lines = linesOf(goal, place, layer, this.#document);
    if (lines.length === 1) {
      this.#document._edit(lines[0]);
    } else {
      this._sayTogether(lines);
    }
    return new Layer(this.#document, layer.id);
  }

  // Says the lines that add a layer as one step, also where no macro is open.
  _sayTogether(lines) {
    const { runs } = this.#document.selection;
    // A stamp writes into selected cells alone.
    const all = runs.length === 0 ? lines : ["select none", ...lines, ...selecting(runs)];
    const say = () => all.forEach((line) => this.#document._edit(line));
    const isAlone = this.#document.status.depth === 0;
    isAlone ? this.#document.macro("Add Layer", say, { action: "add layer" }) : say();
  }

  // Throws Refused where the group takes no more layer of a kind: then no macro has begun.
  _refuseOneMore(kind, line) {
    const rows = new Map(this.#document._layerRows.map((row) => [row.id, row]));
    const group = rows.get(this.#group);
    if (group === undefined || KINDS[group.kind] !== "group") {
      throw refusedCall(group === undefined ? 30 : 31, line);
    }
    let around = 0;
    for (let each = group; each !== undefined; each = rows.get(each.parent)) {
      around += 1;
    }
    if (around > MAX_GROUPS - (kind === "group" ? 1 : 0)) {
      throw refusedCall(39, line);
    }
    if (rows.size >= MAX_LAYERS) {
      throw refusedCall(40, line);
    }
  }

  /** What JSON has of them: the list of those in no group, or of those in the group. */
  toJSON() {
    return [...this];
  }

  toString() {
    return `Layers of ${this.#group === null ? "" : `layer ${this.#group} of `}${this.#document.name}`;
  }

  [INSPECT]() {
    return `<${this}>`;
  }
}
