// SPDX-License-Identifier: MIT OR Apache-2.0
// Copies of objects: one step of an `object put` for each, with all that an object is.
import { copyOf } from "../core/whole_objects.js";
import { bytesTooMany, objectLine } from "../core/member_lines.js";
import { pathFrom, plainPath } from "../files/names.js";

export const listed = (words, last = "and") => (words.length < 2 ? words.join("") : `${words.slice(0, -1).join(", ")} ${last} ${words[words.length - 1]}`);
export const nameOf = object => object.name || `Object ${object.id}`;

// What is said of objects that something is done with.
const namesOf = all => (all.length === 1 ? `${nameOf(all[0].object)} is` : `${all.length} objects are`);

const objectLayers = ({ map }) => map.layers.filter(each => each.type === "objectgroup");

// The layer that takes a new object: the one in hand, or else the only one of the map. null where there is none, or several.
export function objectLayer(bench) {
  if (bench.layer?.type === "objectgroup") return bench.layer;
  const all = objectLayers(bench);
  return all.length === 1 ? all[0] : null;
}

// The same; where there is none it is said.
export function layerForObjects(bench) {
  const found = objectLayer(bench);
  if (found) return found;
  const all = objectLayers(bench);
  const names = all.map(each => each.data.name || "(no name)");
  const words = all.length ? `Choose an object layer first: ${listed(names, "or")}.` : "Add an object layer first, by 'Add an object layer' below the layers.";
  return bench.say(words);
}

// The place one cell to the right and down of an object.
const besides = (object, { projection }) => [(object.x ?? 0) + projection.side[0], (object.y ?? 0) + projection.side[1]];

// A path from one folder as it leads there from another one.
function pathBetween(path, from, to) {
  const isRelative = typeof path === "string" && path !== "" && !/^(\/|[a-z]+:)/i.test(path);
  return isRelative && from !== to ? pathFrom(to, plainPath(from + path)) : path;
}

// The members of an object whose files are named from another folder.
function inFolder({ template, properties = [], ...others }, from, to) {
  const moved = properties.map(each => (each.type === "file" ? { ...each, value: pathBetween(each.value, from, to) } : each));
  return { ...others, ...(template !== undefined && { template: pathBetween(template, from, to) }), ...(moved.length && { properties: moved }) };
}

export class ObjectCopies {
  constructor(bench) {
    // `onPasted()` is called where copies are there that were pasted.
    Object.assign(this, { bench, onPasted: () => {} });
  }

  // Calls `go` with the members of copies of objects, { object, layer } each. Where one is too large for a copy it is named, and nothing is
  // done. `done` is what is done with them.
  whole(all, done, go) {
    const copies = all.map(({ object }) => ({ object, members: copyOf(this.bench.editor.membersOf(object.id)) }));
    const large = copies.find(({ members }) => bytesTooMany(objectLine(0, members)));
    if (!large) return go(copies.map(each => each.members));
    const tooMany = bytesTooMany(objectLine(0, large.members)).toLocaleString("en-US");
    return this.bench.say(`${nameOf(large.object)} is not ${done}: it is too large for a copy, by ${tooMany} letters of its texts and corners.`);
  }

  // Keeps objects for a paste.
  keep(all) {
    return this.whole(all, "copied", members => this.take(members, all));
  }

  take(members, all) {
    this.bench.clipboard.keepObjects(members, all.map(({ layer }) => layer));
    this.bench.say(`${namesOf(all)} copied: Ctrl+V puts ${all.length === 1 ? "it" : "them"} where the mouse is.`);
    return true;
  }

  // Puts copies beside the objects, one cell to the right and down.
  duplicate(all) {
    const { map } = this.bench;
    const name = all.length === 1 ? "Duplicate Object" : "Duplicate Objects";
    return this.whole(all, "copied", members => this.put(members.map((each, at) => ({ members: each, layer: all[at].layer.id, place: besides(all[at].object, map) })), name));
  }

  // Puts what was kept where the hand is, or else beside where it was; its tiles are those of the same tilesets here.
  paste() {
    const { bench } = this;
    const kept = bench.clipboard.object;
    return this.layerForPaste(kept) && bench.carried.bring(kept, "pasted", ({ values }) => this.pasteWith(values, kept), false);
  }

  pasteWith(values, kept) {
    const { bench } = this;
    const layer = this.layerForPaste(kept);
    if (!layer) return null;
    const here = kept.all.map(each => this.membersHere(each.members, kept));
    const all = here.map(([members], at) => (values[at] ? { ...members, gid: values[at] } : members));
    const left = here.flatMap(([, lost]) => lost);
    const places = this.placesFor(all, layer);
    const name = all.length === 1 ? "Paste Object" : "Paste Objects";
    const isThere = this.put(all.map((members, at) => ({ members, layer: layer.id, place: places[at] })), name);
    if (isThere) this.onPasted();
    if (isThere && left.length) bench.say(`Without ${listed(left.map(each => each.name))}: an object of the other map is named there.`);
    return null;
  }

  // Where objects are pasted: the middle of them all at the hand, or else one cell beside where they were.
  placesFor(all, layer) {
    const { bench } = this;
    const at = bench.place;
    if (!at) return all.map(members => besides(members, bench.map));
    if (all.length === 1) return [bench.overlay.placeAround(all[0], layer, at.pixelX, at.pixelY)];
    const frames = all.map(members => bench.overlay.frameOf(members, layer));
    const edge = (name, which) => which(...frames.map(frame => frame[name]));
    const { view, map } = bench;
    const middle = [(edge(0, Math.min) + edge(2, Math.max)) / 2, (edge(1, Math.min) + edge(3, Math.max)) / 2];
    const [fromX, fromY] = map.projection.named((middle[0] - view.originX) / view.scale, (middle[1] - view.originY) / view.scale);
    return all.map(({ x = 0, y = 0 }) => [x + at.pixelX - fromX, y + at.pixelY - fromY]);
  }

  // The members of a copy on the active map, and the properties that it leaves: an id of an object of another map would name any object here.
  membersHere(members, kept) {
    if (this.bench.carried.numbers.isHome(kept)) return [{ ...members }, []];
    const { properties = [], ...others } = members;
    const left = properties.filter(({ type, value }) => type === "object" && value !== 0);
    const staying = properties.filter(each => !left.includes(each));
    return [inFolder({ ...others, properties: staying }, kept.folder, this.bench.editor.folder), left];
  }

  // The layer in hand, or else that of the first object, where this is its map; of another map it is none that has the same id by chance. null
  // where there is none that takes an object: it is said.
  layerForPaste(kept) {
    const { bench } = this;
    const own = bench.carried.numbers.isHome(kept) ? bench.map.layer(kept.all[0].layer) : null;
    const layer = bench.layer?.type !== "objectgroup" && own?.type === "objectgroup" ? own : layerForObjects(bench);
    return layer && !bench.barsObjects(layer, "pasted") ? layer : null;
  }

  // Adds copies, { members, layer, place } each, as one step, and gives whether they are there.
  put(all, name) {
    const { bench } = this;
    const first = bench.map.data.nextobjectid;
    const lines = all.map(({ members, layer, place }) => {
      const [x, y] = place.map(Math.round);
      return objectLine(layer, { ...members, x, y });
    });
    if (!bench.doAsOne(`${name} || ${name.toLowerCase()}`, lines).isAccepted) return false;
    bench.chooseObjects(all.map((_, at) => first + at));
    return true;
  }
}
