// SPDX-License-Identifier: MIT OR Apache-2.0
// Flips and turns a stamp, as Tiled does with its keys X, Y and Z.
import { HORIZONTALLY, VERTICALLY, flippedTile, turnedTile } from "../../js/blocks.js";

// The stamp whose value at x, y is what `from` says of the old one, each value changed by `change`.
function remade({ values, width }, newWidth, newHeight, from, change) {
  const made = [];
  for (let y = 0; y < newHeight; y++) {
    for (let x = 0; x < newWidth; x++) {
      const [oldX, oldY] = from(x, y);
      made.push(change(values[oldY * width + oldX]));
    }
  }
  return { width: newWidth, height: newHeight, values: made };
}

export function flippedToSide(stamp) {
  return remade(stamp, stamp.width, stamp.height, (x, y) => [stamp.width - 1 - x, y], value => flippedTile(value, HORIZONTALLY));
}

export function flippedUpDown(stamp) {
  return remade(stamp, stamp.width, stamp.height, (x, y) => [x, stamp.height - 1 - y], value => flippedTile(value, VERTICALLY));
}

export function turnedRight(stamp) {
  return remade(stamp, stamp.height, stamp.width, (x, y) => [y, stamp.height - 1 - x], turnedTile);
}

export const turnedLeft = stamp => turnedRight(turnedRight(turnedRight(stamp)));
