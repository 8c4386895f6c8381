// SPDX-License-Identifier: MIT OR Apache-2.0
// How the text of a map is laid out: as that of its source, or in a layout of a name. So no save is refused for its
// layout.
import { hasAside } from "./tiled_maps.js";
import * as words from "./words.js";

// The numbers that the library has for layouts: that of Tiled, that with rows of cells on lines of their own, and that without lines
// and spaces.
const NUMBERS = new Map([["tiled", 0], ["rows", 1], ["compact", 3]]);
const LAYOUTS = [...NUMBERS.keys()];

/** The name of a layout; null where none is named. Throws RangeError for any other word. */
export function layoutOf(word) {
  return word === null ? null : words.oneOf(word, LAYOUTS, "the layout of a map");
}

/** The text of a map in a layout; without one as its source is. What was set aside is put back already. */
export function laidOut(module, text, { layout, source }) {
  if (layout !== null) {
    return module.laidOut(text, NUMBERS.get(layout));
  }
  // What still stands under the reserved names is the map's own.
  return hasAside(text) ? module.laidOut(text, NUMBERS.get("tiled")) : module.laidOutLike(text, source);
}
