// SPDX-License-Identifier: MIT OR Apache-2.0
// What a tileset tells of how its tiles are drawn, beside their sizes: how far they are moved, where a tile object stands, which picture an
// animation shows first, which colour of its image is clear, and which images its tiles have of their own.
import { partsOfColour } from "../view/tints.js";

const FARTHEST = 1_000_000;
// How many tiles with images of their own are looked at.
const MOST_PICTURES = 2000;

const moved = (number = 0) => Math.max(-FARTHEST, Math.min(FARTHEST, Math.round(number)));

// { offset, alignment, frames, clear, pictures }, of what a tileset tells.
export function looksOf({ tiles = [], tileoffset, objectalignment = "unspecified", transparentcolor }) {
  const known = tiles.filter(({ id }) => id !== undefined);
  const frames = known.map(({ id, animation }) => [id, animation?.[0]?.tileid]).filter(([, frame]) => frame !== undefined);
  return {
    offset: [moved(tileoffset?.x), moved(tileoffset?.y)],
    alignment: objectalignment,
    frames: frames.length ? new Map(frames) : null,
    clear: partsOfColour(transparentcolor),
    pictures: known.filter(({ image }) => image).map(({ id, image }) => [id, image]).slice(0, MOST_PICTURES),
  };
}
