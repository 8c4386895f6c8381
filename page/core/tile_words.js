// SPDX-License-Identifier: MIT OR Apache-2.0
// A tile in words: its tileset, its id there, and how it is turned, as `tiles 12, flipped`.
import { DIAGONAL, HEXAGON, TO_SIDE, UP_DOWN, idIn } from "./tile_numbers.js";

// By the three flips: to the side, upside down, over the diagonal.
const WORDS = ["", "turned right, flipped", "flipped down", "turned left", "flipped", "turned right", "turned round", "turned left, flipped"];

// How a value's tile is turned: "" where it is as in its tileset.
export function turnOf(value) {
  const flips = (value & TO_SIDE ? 4 : 0) + (value & UP_DOWN ? 2 : 0) + (value & DIAGONAL ? 1 : 0);
  return [WORDS[flips], value & HEXAGON ? "turned by 120°" : ""].filter(word => word).join(", ");
}

export function wordsOf(value, tilesets) {
  if (value === 0) return "empty";
  const tileset = tilesets.of(value);
  const turn = turnOf(value);
  return `${tileset ? `${tileset.name} ${idIn(value, tileset)}` : "a tile of no tileset"}${turn ? `, ${turn}` : ""}`;
}
