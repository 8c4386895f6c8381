// SPDX-License-Identifier: MIT OR Apache-2.0
// What a new map has, as a file has it: one empty tile layer, and the tilesets that it is given.

// The version of Tiled's format, and the side of a chunk of an infinite map.
const FORMAT = "1.10";
const CHUNK = 16;

export const ORIENTATIONS = ["orthogonal", "isometric", "staggered", "hexagonal"];

// Empty chunks at two corners of as many columns and rows, so that there is something to draw on. None is between them, since each would be
// saved, though nothing is drawn there.
function cornerChunks(width, height) {
  const chunkAt = (x, y) => ({ data: new Array(CHUNK * CHUNK).fill(0), height: CHUNK, width: CHUNK, x, y });
  const [x, y] = [width - CHUNK, height - CHUNK];
  return x || y ? [chunkAt(0, 0), chunkAt(x, y)] : [chunkAt(0, 0)];
}

function layerOf({ width, height, isInfinite }) {
  const cells = isInfinite ? { chunks: cornerChunks(width, height), startx: 0, starty: 0 } : { data: new Array(width * height).fill(0) };
  return { ...cells, height, id: 1, name: "Tile Layer 1", opacity: 1, type: "tilelayer", visible: true, width, x: 0, y: 0 };
}

// What a map of an orientation has beside others, as Tiled makes one.
function ofOrientation({ orientation, tall }) {
  const staggered = { staggeraxis: "y", staggerindex: "odd" };
  if (orientation === "hexagonal") return { ...staggered, hexsidelength: Math.floor(tall / 2) };
  return orientation === "staggered" ? staggered : {};
}

// A map of a size, in cells and in pixels of a cell: { width, height, side, tall, orientation, isInfinite, tilesets }. An infinite one has whole
// chunks.
export function newMap(given) {
  const whole = length => (given.isInfinite ? Math.ceil(length / CHUNK) * CHUNK : length);
  const made = { ...given, width: whole(given.width), height: whole(given.height) };
  return {
    compressionlevel: -1, height: made.height, infinite: made.isInfinite, layers: [layerOf(made)], nextlayerid: 2, nextobjectid: 1,
    orientation: made.orientation, renderorder: "right-down", ...ofOrientation(made), tileheight: made.tall, tilesets: made.tilesets,
    tilewidth: made.side, type: "map", version: FORMAT, width: made.width,
  };
}
