// SPDX-License-Identifier: MIT OR Apache-2.0
// The tilesets of a document, and the tiles of its cells.
import { DIAGONALLY, HORIZONTALLY, TURNED, VERTICALLY } from "./blocks.js";
import { BadTileset, NotFound, refusedCall } from "./faults.js";
import * as json from "./json_values.js";
import { Owner, WithOwnMembers, setMember, setOrRemove } from "./own_members.js";
import { BASE } from "./rows.js";
import { tilesetIn } from "./tileset_files.js";
import * as words from "./words.js";

// The flags of a value, as a tile tells them.
const FLAGS = {
  flippedHorizontally: HORIZONTALLY,
  flippedVertically: VERTICALLY,
  flippedDiagonally: DIAGONALLY,
  turned: TURNED,
};
const INSPECT = Symbol.for("nodejs.util.inspect.custom");

/** What is thrown where there is nothing that a key stands for: it says which ids there are. */
export function absent(kind, key, ids) {
  const others = ids.length === 0 ? ", nor any other one" : `: the ids are ${words.listed(ids)}`;
  return new NotFound(`there is no ${kind} ${words.quoted(key)} here${others}`);
}

// The most tiles that are listed.
const MOST_TILES = 1_048_576;
const FIRST_ID = "the first id of a tileset";

// The JSON objects of an array; none of what is no array.
function objectsOf(value) {
  const isObject = (each) => typeof each === "object" && each !== null && !Array.isArray(each);
  return Array.isArray(value) ? value.filter(isObject) : [];
}

// A tile of a tileset, by what its tileset says of it. What is of another kind than Tiled's is left out.
function tileOfSet(id, { type, class: kind, properties, objectgroup } = {}) {
  const named = objectsOf(properties).filter(({ name }) => typeof name === "string").map(({ name, value }) => [name, value]);
  const shapes = Object.freeze(objectsOf(objectgroup?.objects));
  return Object.freeze({ localId: id, type: String(type || kind || ""), properties: Object.freeze(Object.fromEntries(named)), shapes });
}

// The tiles of a tileset, by its members. Throws BadTileset where it has too many, or does not say how many.
function tilesOf({ tilecount = 0, tiles, image }) {
  if (!Number.isInteger(tilecount) || tilecount < 0 || tilecount > MOST_TILES) {
    throw new BadTileset(`a tileset has 0 to ${MOST_TILES} tiles, and this one says: ${words.quoted(tilecount)}`);
  }
  const said = new Map(objectsOf(tiles).filter(({ id }) => Number.isInteger(id)).map((tile) => [tile.id, tile]));
  // A collection of images has the tiles that it lists, whose ids may have gaps.
  const isCollection = image === undefined && [...said.values()].some((tile) => tile.image !== undefined);
  const ids = isCollection ? [...said.keys()].sort((one, other) => one - other) : [...Array(tilecount).keys()];
  return ids.map((id) => tileOfSet(id, said.get(id)));
}

/**
 * A tileset of a document, by its first id. It stays the same however the map changes; a call throws
 * Refused, 36, where the map has no tileset of that first id.
 */
export class Tileset extends WithOwnMembers {
  #document;

  constructor(document, firstId) {
    super();
    this.#document = document;
    this.firstId = firstId;
    Object.freeze(this);
  }

  get _members() {
    const members = this.#document._read("tileset", this.firstId);
    if (members === null) {
      throw refusedCall(36, this.toString());
    }
    return members;
  }

  // Whether it is one of this document.
  _isOf(document) {
    return this.#document === document;
  }

  get _owner() {
    return new Owner(this.#document, "tileset", this.firstId, () => this._members);
  }

  /**
   * The path of its file from the folder of the map; null where the map has it in itself. Set, it gives the tileset another
   * file, and null takes it away; no cell changes, and no file is read.
   */
  get source() {
    return this._members.source ?? null;
  }

  set source(source) {
    setOrRemove(this, "source", source === null ? null : json.text(source, "the source of a tileset"));
  }

  /** Its name, where the map has it in itself; else null: no file of a tileset is read. Set, it gives it another one in the map. */
  get name() {
    return this._members.name ?? null;
  }

  set name(name) {
    setMember(this, "name", json.text(name, "the name of a tileset"));
  }

  /** Its class, as Tiled calls it: the member `class` of the map's file. Set, it gives the tileset another one there. */
  get className() {
    return this._members.class ?? "";
  }

  set className(name) {
    setMember(this, "class", json.text(name, "the class of a tileset"));
  }

  /** All that the map says of it, but for its first id; of a tileset in the map its tiles, too: a copy. */
  get members() {
    const { firstgid, ...members } = this._members;
    return members;
  }

  /**
   * Its tiles by their ids, where the map has it in itself; else null: no file of a tileset is read. Throws BadTileset
   * where it has too many, or does not say how many.
   */
  get tiles() {
    const members = this._members;
    return members.source === undefined ? tilesOf(members) : null;
  }

  /**
   * Its tiles by their ids, as its file has them, of which these are the bytes or the text, in XML or in JSON. Throws TypeError;
   * BadTileset where they are no tileset, with the reason and the place.
   */
  tilesIn(data) {
    return tilesOf(tilesetIn(this.#document.editor._module, data, this.toString()));
  }

  /** The value of a cell with its tile of this id, which Tiled shows as the tile's ID. */
  value(localId, flips = {}) {
    const base = this.firstId + words.number(localId, "the id of a tile");
    if (base > BASE) {
      throw new RangeError(`the id of a tile is at most ${BASE - this.firstId} here: ${localId}`);
    }
    const bits = Object.entries(FLAGS).filter(([name]) => flips[name]);
    return bits.reduce((sum, [, bit]) => sum + bit, base);
  }

  /** Removes it from the map. */
  remove() {
    this.#document._edit(`tileset remove ${this.firstId}`);
  }

  /** What JSON has of it: its first id, its source and its name. */
  toJSON() {
    const { firstId, source, name } = this;
    return { firstId, source, name };
  }

  /** Its first id. */
  valueOf() {
    return this.firstId;
  }

  toString() {
    return `Tileset ${this.firstId} of ${this.#document.name}`;
  }

  [INSPECT]() {
    return `<${this}>`;
  }
}

/** The tile that a value, which is not 0, stands for. */
export function tileOf(document, value) {
  const base = (value & BASE) >>> 0;
  const firsts = document._ids("tilesets").filter((each) => each <= base);
  const first = firsts.length > 0 ? Math.max(...firsts) : null;
  const flips = Object.entries(FLAGS).map(([name, bit]) => [name, (value & bit) !== 0]);
  return Object.freeze({
    value,
    tileset: first === null ? null : new Tileset(document, first),
    localId: first === null ? null : base - first,
    ...Object.fromEntries(flips),
  });
}

// A tileset as JSON. Throws TypeError, RangeError.
const textOf = (members) => json.membersSaid(members, "the members of a tileset");
const putLine = (text) => `tileset put ${text}`;

// What a file has of the tiles that Tiled cuts from an image: with a margin at its left and its top, and a spacing between
// tiles. Throws TypeError; RangeError where no tile fits.
function gridOf(image, tile, margin, spacing) {
  const sides = image.map((side) => words.number(side, "a side of an image"));
  const steps = tile.map((side) => words.number(side, "a side of a tile"));
  const [edge, gap] = [words.number(margin, "the margin of a tileset"), words.number(spacing, "the spacing of a tileset")];
  const counts = sides.map((side, at) => (steps[at] > 0 ? Math.floor((side - edge + gap) / (steps[at] + gap)) : 0));
  if (Math.min(...counts) < 1) {
    const [what, whole] = [steps, sides].map((each) => each.join(" by "));
    throw new RangeError(`no tile of ${what} pixels fits into an image of ${whole}, with a margin of ${edge}`);
  }
  const [columns, rows] = counts;
  return {
    imagewidth: sides[0], imageheight: sides[1], tilewidth: steps[0], tileheight: steps[1], margin: edge, spacing: gap,
    columns, tilecount: columns * rows,
  };
}

/** The tilesets of a document, in order, by first id, or by source or name. */
export class Tilesets {
  #document;

  constructor(document) {
    this.#document = document;
    Object.freeze(this);
  }

  *[Symbol.iterator]() {
    for (const first of this.#document._ids("tilesets")) {
      yield new Tileset(this.#document, first);
    }
  }

  /** The number of tilesets. */
  get size() {
    return this.#document._sizes.tilesets;
  }

  /** The first one in order; null where the map has none. */
  get first() {
    const [first = null] = this;
    return first;
  }

  // The first id of what a key stands for; null where there is no such tileset.
  _found(key) {
    const document = this.#document;
    if (key instanceof Tileset) {
      return key._isOf(document) ? this._found(key.firstId) : null;
    }
    if (typeof key === "number") {
      return words.isId(key) && document._count("tileset", key) !== null ? key : null;
    }
    const named = (first) => {
      const members = document._read("tileset", first);
      return (members.source ?? members.name) === key;
    };
    return document._ids("tilesets").find(named) ?? null;
  }

  /** The tileset with a first id, or the first with a source or a name. Throws NotFound. */
  get(key) {
    const found = this.find(key);
    if (found === null) {
      throw absent("tileset", key, this.#document._ids("tilesets"));
    }
    return found;
  }

  /** The same; null where there is none. */
  find(key) {
    const first = this._found(key);
    return first === null ? null : new Tileset(this.#document, first);
  }

  /** Whether there is a tileset with a first id, a source or a name. */
  has(key) {
    return this._found(key) !== null;
  }

  /** Adds a tileset by the path of its file from the folder of the map, last, and gives it. */
  add(firstId, source, options) {
    const { renumbers } = words.options(options, { renumbers: false });
    const first = words.number(firstId, FIRST_ID);
    const line = `tileset add ${first} ${words.text(source, "the source of a tileset")}`;
    return this._added(first, line, `tilesets.add(${first}, ${JSON.stringify(source)})`, renumbers);
  }

  /** Adds a tileset as a file has it, last, and gives it: with `firstgid`, and `source` or all that it is. */
  put(members, options) {
    const { renumbers } = words.options(options, { renumbers: false });
    const text = textOf(members);
    const { firstgid: first } = JSON.parse(text);
    return this._added(first, putLine(text), `tilesets.put({ firstgid: ${first}, .. })`, renumbers);
  }

  /**
   * Adds a tileset that the map has in itself, last, and gives it: the tiles of an image, row by row, as many as Tiled cuts
   * from it. The image is named by its path from the folder of the map, and not read.
   */
  addFromImage(firstId, name, image, imageWidth, imageHeight, tileWidth, tileHeight, options) {
    const { margin, spacing, renumbers } = words.options(options, { margin: 0, spacing: 0, renumbers: false });
    const first = words.number(firstId, FIRST_ID);
    const grid = gridOf([imageWidth, imageHeight], [tileWidth, tileHeight], margin, spacing);
    const named = { name: json.text(name, "the name of a tileset"), image: json.text(image, "the image of a tileset") };
    const line = putLine(textOf({ firstgid: first, ...named, ...grid }));
    return this._added(first, line, `tilesets.addFromImage(${first}, ${JSON.stringify(name)}, ..)`, renumbers);
  }

  /**
   * Gives a tileset another first id, in its place in the list, and gives it. Each cell and each object that has a tile of it
   * keeps that tile. Throws NotFound.
   */
  renumber(key, firstId) {
    const first = words.number(firstId, FIRST_ID);
    this.#document._edit(`tileset number ${this.get(key).firstId} ${first}`);
    return new Tileset(this.#document, first);
  }

  // Says a line that adds a tileset, and gives that.
  _added(first, line, call, renumbers) {
    const value = renumbers || !words.isId(first) ? null : this._valueAbove(first);
    if (value !== null) {
      const why = `a tile with the value ${value} is in use, and would be one of it: { renumbers: true } adds it all the same`;
      throw refusedCall(37, call, { why });
    }
    this.#document._edit(line);
    return new Tileset(this.#document, first);
  }

  // The least value in use that is a tile of a tileset, and would be one of another with this first id; null where there
  // is none, and where that first id is not above the others.
  _valueAbove(first) {
    const firsts = this.#document._ids("tilesets");
    if (firsts.length === 0 || firsts.some((each) => each >= first)) {
      return null;
    }
    let least = null;
    for (const value of this.#document._valuesInUse()) {
      if (value >= first && (least === null || value < least)) {
        least = value;
      }
    }
    return least;
  }

  /** What JSON has of them: the list of all. */
  toJSON() {
    return [...this];
  }

  toString() {
    return `Tilesets of ${this.#document.name}`;
  }

  [INSPECT]() {
    return `<${this}>`;
  }
}
