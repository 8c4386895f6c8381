// SPDX-License-Identifier: MIT OR Apache-2.0
// Tiles in cells, and blocks of them that are flipped and turned.
import { BASE, rowsOf } from "./rows.js";

/** The flags of a value, as Tiled has them. */
export const HORIZONTALLY = 0x8000_0000;
export const VERTICALLY = 0x4000_0000;
export const DIAGONALLY = 0x2000_0000;
export const TURNED = 0x1000_0000;

/** A value without flips. Throws TypeError, RangeError. */
export function tileValue(value) {
  if (!Number.isInteger(value)) {
    throw new TypeError(`a value without flips is a whole number: ${String(value)}`);
  }
  if (value < 0 || value > BASE) {
    throw new RangeError(`a value without flips is from 0 to ${BASE}: ${value}`);
  }
  return value;
}

/** A value whose tile, where it is the old one, is the new one. An empty cell has no flips. */
export function replaced(value, old, next) {
  if ((value & BASE) !== old) {
    return value;
  }
  return next === 0 ? 0 : ((value & ~BASE) | next) >>> 0;
}

/** A tile that is flipped by one of the flags; an empty cell stays empty. */
export const flippedTile = (value, flag) => (value === 0 ? 0 : (value ^ flag) >>> 0);

/** A tile turned to the right by a quarter: flipped over the diagonal and then to the side, behind the flips that it has. */
export function turnedTile(value) {
  const [toSide, upDown] = [value & HORIZONTALLY, value & VERTICALLY];
  const flips = (upDown ? 0 : HORIZONTALLY) | (toSide ? VERTICALLY : 0) | ((value & DIAGONALLY) ^ DIAGONALLY);
  return value === 0 ? 0 : ((value & (BASE | TURNED)) | flips) >>> 0;
}

/** Rows of values flipped to the side, the tiles in them too. Throws TypeError, RangeError. */
export function flippedHorizontally(rows) {
  return rowsOf(rows).map((row) => row.map((value) => flippedTile(value, HORIZONTALLY)).reverse());
}

/** Rows of values flipped upside down, the tiles in them too. Throws TypeError, RangeError. */
export function flippedVertically(rows) {
  return rowsOf(rows).map((row) => row.map((value) => flippedTile(value, VERTICALLY))).reverse();
}

/**
 * Rows of values turned to the right by a quarter, the tiles in them too, as on a map with square cells.
 * Throws TypeError, RangeError.
 */
export function turnedRight(rows) {
  const upward = rowsOf(rows).reverse();
  return upward[0].map((_, column) => upward.map((row) => turnedTile(row[column])));
}
