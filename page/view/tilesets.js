// SPDX-License-Identifier: MIT OR Apache-2.0
// The tilesets of a map with their images, where those can be had: a tileset is a `.tsx` or `.tsj` file with one image, or stands in the
// map itself.
import { PixelBudget, Wrong, imageFile, unpacked } from "../files/image_files.js";
import { OddMembers } from "../files/members.js";
import { folderOf, lastOf } from "../files/names.js";
import { TileLooks } from "./tile_looks.js";
import { DIAGONAL, TILE, keyOf, setOf, setsOf } from "../core/tile_numbers.js";
import { checked, claimOf, heldBy, readTileset } from "../files/tileset_files.js";

export { colourOf } from "./tile_looks.js";

// How many tiles a tileset without an image has, where its file does not tell, and how many of them are shown at most.
const USUAL = 256;
const MOST_BARE = 65_536;
const LONGEST_NAME = 80;
// Under this stands the one image of a tileset, where others stand under the ids of their tiles.
const WHOLE = "whole";

class Tileset {
  // `first` and `last` are values of the map, and `members` is what its file has: checked, or nothing. The size of an image is known also
  // where it has no place: { width, height }.
  constructor(first, last, source, members, image, map, size = null) {
    Object.assign(this, { first, source, image, why: "" });
    this.name = members.name || source?.slice(0, LONGEST_NAME) || "tiles";
    this.tileWidth = members.tilewidth || map.tileWidth;
    this.tileHeight = members.tileheight || map.tileHeight;
    this.spacing = members.spacing ?? 0;
    this.margin = members.margin ?? 0;
    this.columns = members.columns || 8;
    [this.offsetX, this.offsetY] = members.offset ?? [0, 0];
    this.alignment = members.alignment ?? "unspecified";
    this.members = members;
    const most = last - first + 1;
    this.count = Math.min(members.tilecount || members.tiles || USUAL, most, MOST_BARE);
    if (members.image && (image ?? size)) this.takeImage(image ?? size, most, map);
  }

  // Keeps to the tiles that the image holds.
  takeImage(image, most, map) {
    const { members } = this;
    const held = heldBy(image, { ...this, columns: members.columns });
    this.why = claimOf(image, { ...this, columns: members.columns }, held, members.tilecount ?? 0);
    this.held = Math.min(members.tilecount || held.count, held.count);
    if (held.count > 0) Object.assign(this, { columns: held.columns, count: Math.min(members.tilecount || held.count, held.count, most) });
    else Object.assign(this, { image: null, columns: 8, count: Math.min(this.count, USUAL), tileWidth: map.tileWidth, tileHeight: map.tileHeight });
  }

  // How many values it takes of those of the map, as Tiled reckons the first id of the next one; null where that is not known.
  get span() {
    const known = this.held || this.members.tiles || null;
    return this.why ? known : Math.max(this.members.tilecount ?? 0, known ?? 0) || null;
  }

  // How many tiles it has; null where that is not known, as where its image alone tells it, and is not there.
  get size() {
    const isKnown = this.held > 0 || !this.members.image || (this.members.tilecount > 0 && !this.why);
    return isKnown ? this.span : null;
  }

  // It has no image any more.
  drop() {
    this.image = null;
  }

  // The image that has a tile, and the size of the tile there.
  imageFor() {
    return this.image;
  }

  sizeOf() {
    return [this.tileWidth, this.tileHeight];
  }

  // Whether the image has a tile.
  has(tile) {
    return Boolean(this.image) && tile >= 0 && tile < this.count;
  }

  // Where a tile stands in the image, in pixels; of an animation its first picture does.
  placeOf(id) {
    const shown = this.members.frames?.get(id) ?? id;
    const tile = shown < this.count ? shown : id;
    const column = tile % this.columns;
    const row = Math.floor(tile / this.columns);
    return [this.margin + column * (this.tileWidth + this.spacing), this.margin + row * (this.tileHeight + this.spacing)];
  }
}

// A tileset of which each tile has an image of its own.
class PictureSet extends Tileset {
  // `pictures` are the images by the ids of the tiles.
  constructor(first, last, source, members, pictures, map) {
    super(first, last, source, members, null, map);
    this.pictures = pictures;
    // Some image: so it is drawn.
    this.image = pictures.values().next().value ?? null;
    this.count = Math.min(members.tiles, last - first + 1, MOST_BARE);
  }

  drop() {
    super.drop();
    this.pictures = new Map();
  }

  imageFor(id) {
    return this.pictures.get(this.members.frames?.get(id)) ?? this.pictures.get(id);
  }

  sizeOf(id) {
    const { width, height } = this.imageFor(id);
    return [width, height];
  }

  has(tile) {
    return this.pictures.has(tile);
  }

  placeOf() {
    return [0, 0];
  }
}

// The tilesets of one map. The same ones are not asked for again.
export class Tilesets {
  // All images of the map may have `most` pixels together.
  constructor(editor, most = undefined) {
    Object.assign(this, { editor, most, all: [], said: "[]", shown: "[]", budget: new PixelBudget(most) });
    // How many tiles each tileset has that was read, by its key; null where that is not known. One that is lost by now has as many as it had.
    this.sizes = new Map();
    // Called where a colour is known that was not when the map was drawn.
    this.onLooks = () => {};
    this.forgetLooks();
    // The paths of the files that cannot be had, the tilesets that are wrong: { name, why }, what is odd in each, and the paths of images for
    // which there are no pixels left.
    Object.assign(this, { missing: [], wrong: [], odd: [], past: [] });
  }

  // Asks for the files anew with the next map: others can be had by now.
  forget() {
    this.said = "[]";
    this.known = null;
  }

  // Those of the active map, as tile numbers are read by them, also while their files are being read.
  get sets() {
    const { map, openDocuments, place } = this.editor;
    const path = openDocuments.file?.path ?? "";
    if (this.known?.map === map && this.known.path === path && this.known.place === place) return this.known.sets;
    const all = map?.data.tilesets ?? [];
    const said = JSON.stringify([all, path, openDocuments.active]);
    const isSame = this.known?.said === said && this.known.place === place;
    const sets = isSame ? this.known.sets : setsOf(all, folderOf(path), place, lastOf(path) || openDocuments.active);
    this.known = { map, path, place, said, sets };
    return sets;
  }

  // Whether those of the map that stands there are still being read.
  get isReading() {
    return this.said !== this.shown;
  }

  // Takes the tilesets of a map, and says whether they are others than before. Images are unpacked once it is known which have their place.
  // `reading` ends with that.
  async take(map) {
    const wanted = map ? map.data.tilesets : [];
    const folder = folderOf(this.editor.openDocuments.file?.path ?? "");
    const said = JSON.stringify([wanted, map?.tileWidth, map?.tileHeight, folder]);
    if (said === this.said) return false;
    this.said = said;
    this.folder = folder;
    this.reading = this.takeRead(wanted, said, map);
    return this.reading;
  }

  async takeRead(wanted, said, map) {
    const found = { missing: [], wrong: [], odd: [], past: [], budget: new PixelBudget(this.most) };
    const sorted = [...wanted].sort((one, other) => one.firstgid - other.firstgid);
    const read = await Promise.all(sorted.map(data => this.read(data, found)));
    if (said !== this.said) return false;
    const files = placed(read, found);
    // Where both have too many, the old images go before the new ones come.
    if (this.budget.taken + found.budget.taken > found.budget.most) this.close();
    const images = await imagesOf(files);
    if (said !== this.said) {
      closeAll(images.values());
      return false;
    }
    const all = read.map((each, at) => made(each, (sorted[at + 1]?.firstgid ?? TILE + 1) - 1, images, map, found));
    read.forEach(({ key, isLost }, at) => isLost || this.sizes.set(key, all[at].size));
    closeAll(this.images?.values() ?? []);
    Object.assign(this, found, { all, images, shown: said });
    this.forgetLooks();
    return true;
  }

  // Lets the images go: tiles are numbers from now on.
  close() {
    for (const tileset of this.all) tileset.drop();
    closeAll(this.images?.values() ?? []);
  }

  forgetLooks() {
    this.looks = new TileLooks(value => this.of(value), () => this.onLooks());
  }

  // Reads what a tileset tells, and the files of its images: { data, key, members, files, isLost, why }, where
  // `isLost` says that it has no file, and `why` is what is wrong with it.
  async read(data, found) {
    const read = { data, key: keyOf(data, this.folder, this.editor.place), members: {}, files: new Map(), isLost: false, why: "" };
    const odd = new OddMembers();
    found.odd.push(odd);
    try {
      const path = this.folder + (data.source ?? "");
      const members = data.source ? await this.readFile(path, found) : data;
      read.isLost = members === null;
      read.members = checked(members ?? {}, odd, data.source ? `the tileset ${data.source}` : "a tileset in the map");
      for (const [id, image] of imagesIn(read.members)) await this.readImage(read, id, folderOf(this.editor.place.pathOf(path)) + image, found);
    } catch (fault) {
      if (!(fault instanceof Wrong)) throw fault;
      read.why = fault.message;
      read.files.clear();
    }
    return read;
  }

  // What the file of a tileset tells; null where there is none.
  async readFile(path, found) {
    const bytes = await this.bytesOf(path, found);
    return bytes ? readTileset(bytes) : null;
  }

  async readImage({ files, members }, id, path, found) {
    const bytes = await this.bytesOf(path, found);
    if (bytes) files.set(id, { ...imageFile(path, bytes), clear: members.clear });
  }

  async bytesOf(path, found) {
    const { place } = this.editor;
    const bytes = await place.bytes(place.pathOf(path)).catch(() => null);
    if (!bytes) found.missing.push(path);
    return bytes;
  }

  // The tileset that has a value, or null.
  of(value) {
    return setOf(value, this.all);
  }

  // Whether a tile hides all that is below it in a cell of this size.
  hides(value, width, height) {
    const tileset = this.of(value);
    if (tileset?.tileWidth !== width || tileset.tileHeight !== height || (value & DIAGONAL && width !== height)) return false;
    return this.looks.hides(value);
  }

  // The colour of a value from afar, as a pixel of 32 bits: alpha, blue, green, red.
  mean(value) {
    return this.looks.mean(value);
  }
}

// The images that a tileset tells: one under a name of its own, or those of its tiles by their ids.
const imagesIn = members => (members.image ? [[WHOLE, members.image]] : members.pictures);

const imageKeyOf = ({ path, clear }) => `${clear ?? ""} ${path}`;

// The files of the images of tilesets that were read, each once under its key, in the order of the tilesets; null where there are no pixels
// left for one.
function placed(read, { budget, past }) {
  const files = new Map();
  for (const file of read.flatMap(each => [...each.files.values()])) {
    const key = imageKeyOf(file);
    if (files.has(key)) continue;
    files.set(key, budget.takes(file) ? file : null);
    if (!files.get(key)) past.push(file.path);
  }
  return files;
}

// The images of files by their keys: null where one has no place, or what is wrong with it.
async function imagesOf(files) {
  const unpackedOrWrong = file => unpacked(file, file.clear).catch(fault => {
    if (fault instanceof Wrong) return fault;
    throw fault;
  });
  return new Map(await Promise.all([...files].map(async ([key, file]) => [key, file && (await unpackedOrWrong(file))])));
}

const closeAll = images => {
  for (const image of images) image?.close?.();
};

// A tileset of what was read of it, and of the images. `last` is the last value of the map that it may have.
function made({ data, members, files, why }, last, images, map, found) {
  const all = [...files].map(([id, file]) => [id, images.get(imageKeyOf(file))]);
  const said = why || all.map(([, image]) => image).find(image => image instanceof Wrong)?.message || "";
  const isPictures = !said && !members.image && members.pictures?.length > 0;
  const pictures = new Map(said ? [] : all.filter(([, image]) => image));
  const tileset = isPictures
    ? new PictureSet(data.firstgid, last, data.source, members, pictures, map)
    : new Tileset(data.firstgid, last, data.source, said ? { name: members.name } : members, pictures.get(WHOLE) ?? null, map, files.get(WHOLE));
  tileset.why ||= said;
  if (tileset.why) found.wrong.push({ name: data.source ?? tileset.name, why: tileset.why });
  return tileset;
}
