// SPDX-License-Identifier: MIT OR Apache-2.0
// Which tile a number of a map is, and which number a tile has there: the one owner of that.
//
// A number is the first id of a tileset plus the id of a tile in it, with four flips in its top bits. So it means a tile only together with
// the tilesets of its map. What is kept of a map's tiles has these beside it, as a copy:
//
//   { width, height, values }  the numbers, row by row, where 0 is no tile
//   sets                       the tilesets by which they are to be read, as `setsOf` gives them
//   home                       what stands for the document that they are numbers of, for as long as the page lives
import { plainPath } from "../files/names.js";

// The bits of a number below its flips, which are those of Tiled; on a hexagonal map the last two turn a tile by 60 and by 120 degrees.
export const TILE = 0x0fffffff;
export const TO_SIDE = 0x80000000;
export const UP_DOWN = 0x40000000;
export const DIAGONAL = 0x20000000;
export const HEXAGON = 0x10000000;

const LONGEST_NAME = 80;
// For a multiple of how many tiles a tileset has room of which it is not known how many it has.
const ROOM = 1000;

// The tileset that has a number: the one with the greatest first id that is not above it; null where there is none. `sets` are sorted by
// their first ids.
export function setOf(value, sets) {
  const tile = value & TILE;
  let found = null;
  for (const set of sets) {
    if (set.first > tile) break;
    found = set;
  }
  return found;
}

// The id of a number's tile in its tileset; without one the number as it is, but for its flips.
export const idIn = (value, set) => (value & TILE) - (set?.first ?? 0);

// ---- the tilesets of a map
// What tells a tileset from all others: its file, by whichever path a map names it; or its members, where a map has it in itself.
export function keyOf(data, folder, place) {
  const fileOf = path => place.fileOf(place.pathOf(folder + path));
  return data.source ? fileOf(data.source) : membersOf(data, fileOf);
}

// The members in the order of their names, with the files of images in the place of their paths. The first id belongs to the map.
function membersOf(data, fileOf) {
  return JSON.stringify(data, (name, value) => {
    if (name === "firstgid") return undefined;
    if (name === "image" && typeof value === "string") return fileOf(value);
    const isPlain = value !== null && typeof value === "object" && !Array.isArray(value);
    return isPlain ? Object.fromEntries(Object.entries(value).sort(([one], [other]) => (one < other ? -1 : 1))) : value;
  });
}

// The tilesets of a map, sorted by their first ids: { first, key, source, path, name }. `source` leads to its file from the map's folder, and
// `path` from that of the place; both are null where the map, whose title is named, has it in itself. `name` is for words.
export function setsOf(all, folder, place, title) {
  const sets = all.map(data => {
    const path = data.source ? plainPath(place.pathOf(folder + data.source)) : null;
    const own = typeof data.name === "string" ? data.name : "";
    const name = path ?? `${own.slice(0, LONGEST_NAME) || "tiles"}, which ${title} has in itself`;
    return { first: data.firstgid, key: keyOf(data, folder, place), source: data.source || null, path, name };
  });
  return sets.sort((one, other) => one.first - other.first);
}

const areAlike = (sets, others) => sets === others || areSame(sets, others);
const areSame = (sets, others) => sets.length === others.length && sets.every((set, at) => set.first === others[at].first && set.key === others[at].key);

// ---- copies
// The numbers of each list of values, each once, but for 0: it is looked at before each press of the hand.
const numbersOf = new WeakMap();

function numbersIn({ values }) {
  if (!numbersOf.has(values)) numbersOf.set(values, [...new Set(values)].filter(value => value !== 0));
  return numbersOf.get(values);
}

// A copy with those of its tilesets alone that it has tiles of.
export function withUsedSets(copy) {
  const used = new Set(numbersIn(copy).map(value => setOf(value, copy.sets)));
  return { ...copy, sets: copy.sets.filter(set => used.has(set)) };
}

// What stands for each document: a copy would keep the document itself, with all its lines, when it is closed.
const homes = new WeakMap();

function homeOf(document) {
  if (document !== null && !homes.has(document)) homes.set(document, {});
  return document === null ? null : homes.get(document);
}

// The greatest number of a layer without its flips.
function greatestIn(map, layer) {
  const values = layer.isTiles ? map.cells(layer.id, 0, 0, map.width, map.height) : (layer.data.objects ?? []).map(each => each.gid ?? 0);
  return values.reduce((greatest, value) => Math.max(greatest, value & TILE), 0);
}

export class TileNumbers {
  // `tilesets` has those of the active map, `sets`, and the number of tiles of each that is known by now, `sizes`, by its key.
  constructor(editor, tilesets) {
    Object.assign(this, { editor, tilesets });
  }

  // A copy of numbers of the active map.
  copyOf({ width, height, values }) {
    return { width, height, values, sets: this.tilesets.sets, home: this.home };
  }

  // What stands for the active document.
  get home() {
    return homeOf(this.editor.openDocuments.document);
  }

  // Whether a copy was taken from the active map.
  isHome({ home }) {
    return Boolean(home) && home === this.home;
  }

  // Whether the numbers of a copy are those of the active map, as they stand.
  isOfMap(copy) {
    return this.isHome(copy) && areAlike(copy.sets, this.tilesets.sets);
  }

  // What a copy is on the active map: { values }, its numbers there. Or why it is none: { lost, past }, the tilesets that the map does not
  // have, and the tiles without a number there: [{ set, id }], where the set is null if no tileset has the tile.
  read(copy) {
    const numbers = new Map([[0, 0]]);
    const [lost, past, isHome] = [new Set(), [], this.isHome(copy)];
    for (const value of numbersIn(copy)) {
      const from = setOf(value, copy.sets);
      const number = isHome && this.isKept(value, from) ? value : this.numberFor(value, from);
      if (number === null) lost.add(from);
      else if (number === 0) past.push({ set: from, id: idIn(value, from) });
      numbers.set(value, number);
    }
    const isWhole = !lost.size && !past.length;
    return { values: isWhole ? copy.values.map(value => numbers.get(value)) : null, lost: [...lost], past };
  }

  // Whether a number still has the same tileset on its own map: there it stays, though the tileset may stand twice.
  isKept(value, from) {
    const here = setOf(value, this.tilesets.sets);
    return from !== null && here?.first === from.first && here.source === from.source;
  }

  // The number on the active map of a number that a copy has of a tileset. On this map that is the first with the same file or members; null
  // where it has none. 0 where the tile has no number here: it is past the end of its tileset, or another one begins before it.
  numberFor(value, from) {
    const { sets, sizes } = this.tilesets;
    const [to, id] = [sets.find(each => each.key === from?.key) ?? null, idIn(value, from)];
    if (from && !to && id < (sizes.get(from.key) ?? Infinity)) return null;
    const isHere = to !== null && to.first + id <= TILE && setOf(to.first + id, sets) === to && id < (sizes.get(to.key) ?? Infinity);
    return isHere ? (value - from.first + to.first) >>> 0 : 0;
  }

  // The first id for a tileset that is added to the active map: behind all tiles of those that are there, and behind all that it uses. Where
  // it is not known how many tiles the last one has, it has room for whole thousands.
  nextFirst() {
    const { sets, sizes, all } = this.tilesets;
    const { map } = this.editor;
    const known = [...sets.map(set => set.first + (sizes.get(set.key) ?? 1)), ...all.map(set => set.first + (set.span ?? 1))];
    const used = map.layers.map(layer => greatestIn(map, layer) + 1);
    const next = [...known, ...used].reduce((greatest, end) => Math.max(greatest, end), 1);
    const last = sets.at(-1);
    const isKnown = !last || sizes.get(last.key) || all.find(set => set.first === last.first)?.span;
    return isKnown ? next : last.first + Math.ceil((next - last.first) / ROOM) * ROOM;
  }

  // The id behind the last tile that a copy has of a tileset.
  endIn(copy, set) {
    return numbersIn(copy).reduce((end, value) => (setOf(value, copy.sets) === set ? Math.max(end, idIn(value, set) + 1) : end), 0);
  }

  // The tiles of a copy of the active map that are past the end of their tilesets, as far as that is known: [{ set, id }].
  pastEnd(copy) {
    const all = numbersIn(copy).map(value => ({ set: setOf(value, copy.sets), id: idIn(value, setOf(value, copy.sets)) }));
    return all.filter(({ set, id }) => set !== null && id >= (this.tilesets.sizes.get(set.key) ?? Infinity));
  }
}
