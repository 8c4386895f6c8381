// SPDX-License-Identifier: MIT OR Apache-2.0
// Tiles that come from another map, or that were taken before the tilesets of this one were changed: the hand has them as this map numbers
// them, or it does not have them, and why is said.
import { pathFrom } from "../files/names.js";
import { endNotice, notice } from "../panels/notice_bars.js";
import { listed } from "./object_copies.js";
import { TileNumbers, idIn } from "../core/tile_numbers.js";

// What the notices are about: tilesets that a map does not have, and tiles past the end of theirs.
const MISSING = "missing tilesets";
const PAST = "tiles past the end";
// How many tilesets or tiles a message names.
const MOST_NAMED = 3;
const NO_TILE = { width: 1, height: 1, values: [0] };

export function named(all) {
  const more = all.length - MOST_NAMED;
  return more > 0 ? `${all.slice(0, MOST_NAMED).join(", ")} and ${more} more` : listed(all);
}

export class CarriedTiles {
  constructor(bench) {
    Object.assign(this, { bench, editor: bench.editor, tilesets: bench.tilesets, numbers: new TileNumbers(bench.editor, bench.tilesets) });
    // The stamp of the hand that is drawn though tiles of it are past the end.
    this.allowed = null;
    bench.addEventListener("stamp", () => endNotice(PAST));
    bench.addEventListener("document", () => [MISSING, PAST].forEach(about => endNotice(about)));
  }

  // ---- words
  // Why a copy is none on this map, by what it lacks.
  whyOf({ lost, past }) {
    const missing = lost.length ? [`This map does not have the tileset${lost.length > 1 ? "s" : ""} ${named(lost.map(set => set.name))}.`] : [];
    const more = past.length > MOST_NAMED ? [`And ${past.length - MOST_NAMED} more.`] : [];
    return [...missing, ...past.slice(0, MOST_NAMED).map(each => this.whyPast(each)), ...more].join(" ");
  }

  whyPast({ set, id }) {
    if (set === null) return `The number ${id} is of no tileset.`;
    const size = this.tilesets.sizes.get(set.key) ?? Infinity;
    if (id >= size) return `The tileset ${set.name} has ${size} tiles, and no tile ${id}.`;
    return `Tile ${id} of ${set.name} has no number on this map, where another tileset begins before it.`;
  }

  // ---- the hand
  // Takes the first tile of the map, as long as nobody has taken another one. Gives what `follow` gives.
  takeUsual() {
    const before = this.bench.stamp?.values[0];
    const first = this.tilesets.sets[0]?.first ?? 1;
    this.put({ width: 1, height: 1, values: [first] }, true);
    return { isOther: before !== first, why: "" };
  }

  put(stamp, isUsual = false) {
    this.bench.stamp = stamp;
    this.bench.hand = { ...this.numbers.copyOf(stamp), isUsual };
  }

  // Another map is there, or other tilesets of it: the hand has the same tiles as before, or none. Gives whether its numbers are others by
  // now, and why it has none: { isOther, why }.
  follow() {
    const { hand, map } = this.bench;
    if (!map || this.numbers.isOfMap(hand)) return { isOther: false, why: "" };
    return hand.isUsual ? this.takeUsual() : this.carry(hand);
  }

  // Takes a copy into the hand, which has nothing where the copy is none on this map. Gives what `follow` gives.
  carry(copy) {
    const { width, height, values } = copy;
    const read = this.numbers.read(copy);
    this.put(read.values ? { width, height, values: read.values } : NO_TILE);
    const isOther = !read.values || read.values.some((value, at) => value !== values[at]);
    return { isOther, why: read.values ? "" : `The stamp was put down. ${this.whyOf(read)}` };
  }

  // Whether the hand draws nothing: it has no tile, or one that is past the end of its tileset. Says so, and how to draw it all the same.
  bars() {
    const { bench } = this;
    if (!bench.fillValue) {
      bench.say("No tile is in the hand. Take one from the tiles, or with the right button from the map.");
      return true;
    }
    const past = bench.stamp === this.allowed ? [] : this.numbers.pastEnd(bench.hand);
    if (!past.length) return false;
    const words = `${this.whyOf({ lost: [], past })} Nothing was drawn.`;
    bench.say(words);
    const { stamp } = bench;
    notice(PAST, words, [["Draw it all the same", () => void (this.allowed = stamp), "Draw tiles that are past the end of their tileset"], ["OK", () => {}]], "mild");
    return true;
  }

  // How wide and high a tile of the map is: as its image, or else as a cell.
  sizeOf(value) {
    const { map } = this.bench;
    const tileset = this.tilesets.of(value);
    const tile = idIn(value, tileset);
    return tileset?.has(tile) ? tileset.sizeOf(tile) : [map.tileWidth, map.tileHeight];
  }

  // ---- copies
  // Calls `go` with a copy as this map numbers it. Where it is none here that is said, and what was not `done`, and where it was to come into
  // the hand nothing else is left there; where only tilesets are missing that are files, they are offered.
  bring(copy, done, go, isForHand = true) {
    const { bench } = this;
    const { width, height } = copy;
    const read = this.numbers.read(copy);
    endNotice(MISSING);
    if (read.values) return go({ width, height, values: read.values });
    const words = `${this.whyOf(read)} Nothing was ${done}.`;
    if (isForHand) bench.takeStamp(NO_TILE);
    bench.say(words);
    if (read.past.length || !read.lost.every(set => this.isFile(set))) return null;
    const document = this.editor.openDocuments.document;
    const add = async () => {
      if (document !== this.editor.openDocuments.document || !(await this.add(read.lost, copy))) return false;
      return this.bring(copy, done, go, isForHand);
    };
    const what = read.lost.length > 1 ? "them" : "it";
    notice(MISSING, words, [[`Add ${what}`, add, `Add ${named(read.lost.map(set => set.name))} to this map, and go on`], ["OK", () => {}]], "mild");
    return null;
  }

  // Whether a tileset is a file, and its path leads there in the place that is open by now.
  isFile({ path, key }) {
    return path !== null && this.editor.place.fileOf(path) === key;
  }

  // Adds tilesets to the map, as one step, behind all tiles that are known or used, and has them read. Gives whether they are there.
  async add(lost, copy) {
    const folder = this.editor.folder;
    let first = this.numbers.nextFirst();
    const lines = lost.map(set => {
      const line = `tileset add ${first} ${pathFrom(folder, set.path)}`;
      first += Math.max(this.tilesets.sizes.get(set.key) ?? 0, this.numbers.endIn(copy, set));
      return line;
    });
    const { bench } = this;
    const done = lines.length > 1 ? bench.doAsOne("Add Tilesets || add tilesets", lines) : await bench.act(lines);
    await this.tilesets.reading;
    return done.isAccepted;
  }
}
