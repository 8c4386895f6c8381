// SPDX-License-Identifier: MIT OR Apache-2.0
// How tiles look from afar: the mean colour of each, and whether it hides all that is below it. That is found when a tile is first drawn,
// of a bounded number of pixels a frame.
import { TILE } from "../core/tile_numbers.js";

// Tiles below this one have their looks in a table.
const TABLE = 65_536;
const [UNKNOWN, HIDES, SHOWS] = [0, 1, 2];
// How many pixels and how many tiles are looked at in a frame, and the longest side of what is looked at of a tile.
const MOST_PIXELS = 262_144;
const MOST_TILES = 400;
const LONGEST_SIDE = 64;
// What is drawn of a tile that is not known yet: nothing.
const NOT_YET = 0;

// A colour for a tile that has no image.
export function colourOf(value) {
  const tile = value & TILE;
  return `hsl(${tile * 137 % 360} ${50 + tile % 4 * 10}% ${38 + tile % 5 * 6}%)`;
}

function meanOf(pixels) {
  let [red, green, blue, alpha] = [0, 0, 0, 0];
  for (let at = 0; at < pixels.length; at += 4) {
    const weight = pixels[at + 3];
    red += pixels[at] * weight;
    green += pixels[at + 1] * weight;
    blue += pixels[at + 2] * weight;
    alpha += weight;
  }
  return alpha ? [red / alpha, green / alpha, blue / alpha, alpha * 4 / pixels.length].map(Math.round) : [0, 0, 0, 0];
}

function isSolid(pixels) {
  for (let at = 3; at < pixels.length; at += 4) if (pixels[at] !== 255) return false;
  return true;
}

export class TileLooks {
  // `tilesetOf(value)` gives the tileset of a value, or null. Where a frame has looked at as many as it may, `onLate` is called.
  constructor(tilesetOf, onLate) {
    Object.assign(this, { tilesetOf, onLate, pen: null });
    this.table = new Uint32Array(TABLE);
    this.kinds = new Uint8Array(TABLE);
    // The others: [mean, kind].
    this.others = new Map();
    this.beginFrame();
  }

  beginFrame() {
    this.pixels = MOST_PIXELS;
    this.tiles = MOST_TILES;
    this.frame = null;
  }

  // The mean colour of a value, as a pixel of 32 bits: alpha, blue, green, red.
  mean(value) {
    const tile = value & TILE;
    if (tile >= TABLE) return this.other(tile)[0];
    if (this.kinds[tile] === UNKNOWN && !this.look(tile)) return NOT_YET;
    return this.table[tile];
  }

  // Whether a value's tile is known to hide all that is below it.
  hides(value) {
    const tile = value & TILE;
    if (tile >= TABLE) return this.other(tile)[1] === HIDES;
    return (this.kinds[tile] !== UNKNOWN || this.look(tile)) && this.kinds[tile] === HIDES;
  }

  other(tile) {
    if (!this.others.has(tile) && !this.look(tile)) return [NOT_YET, UNKNOWN];
    return this.others.get(tile);
  }

  // Looks at a tile, and tells whether it is known then.
  look(tile) {
    const tileset = this.tilesetOf(tile);
    const [width, height] = tileset ? [tileset.tileWidth, tileset.tileHeight].map(side => Math.min(side, LONGEST_SIDE)) : [1, 1];
    if (this.tiles < 1 || this.pixels < width * height) {
      this.frame ??= requestAnimationFrame(() => {
        this.beginFrame();
        this.onLate();
      });
      return false;
    }
    this.tiles--;
    this.pixels -= width * height;
    this.keep(tile, tileset, this.pixelsOf(tileset, tile, width, height));
    return true;
  }

  keep(tile, tileset, pixels) {
    const isWhole = !tileset?.has(tile - tileset.first) || (tileset.tileWidth <= LONGEST_SIDE && tileset.tileHeight <= LONGEST_SIDE);
    const [red, green, blue, alpha] = meanOf(pixels);
    const mean = (alpha << 24 | blue << 16 | green << 8 | red) >>> 0;
    const kind = isWhole && isSolid(pixels) ? HIDES : SHOWS;
    if (tile >= TABLE) this.others.set(tile, [mean, kind]);
    else [this.table[tile], this.kinds[tile]] = [mean, kind];
  }

  // The pixels of a tile, of a large one made smaller; of one without an image its colour.
  pixelsOf(tileset, tile, width, height) {
    this.pen ??= new OffscreenCanvas(LONGEST_SIDE, LONGEST_SIDE).getContext("2d", { willReadFrequently: true });
    this.pen.clearRect(0, 0, width, height);
    if (tileset?.has(tile - tileset.first)) {
      const id = tile - tileset.first;
      this.pen.drawImage(tileset.imageFor(id), ...tileset.placeOf(id), ...tileset.sizeOf(id), 0, 0, width, height);
    } else {
      this.pen.fillStyle = colourOf(tile);
      this.pen.fillRect(0, 0, width, height);
    }
    return this.pen.getImageData(0, 0, width, height).data;
  }
}
