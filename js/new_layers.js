// SPDX-License-Identifier: MIT OR Apache-2.0
// Layers that are added as a file has them, with all in them: the line that adds one; or, where one line is too short for it, those that
// add it without what it holds, and then that.
import * as json from "./json_values.js";
import { MAX_LINE } from "./limits.js";
import { putLine } from "./new_objects.js";
import { partsOf } from "./rows.js";
import { PACKED } from "./tiled_maps.js";

const MEMBERS = "the members of a layer";
const encoder = new TextEncoder();

/** A layer as a file has it. Throws TypeError; RangeError, also for the note of how a layer was packed, by which a save would pack it. */
export function plain(members) {
  const layer = JSON.parse(json.membersSaid(members, MEMBERS));
  refusePacking(layer);
  return layer;
}

function refusePacking(layer) {
  if (layer !== null && typeof layer === "object") {
    if (Object.hasOwn(layer, PACKED)) {
      throw new RangeError(`${MEMBERS} have a reserved name: "${PACKED}"`);
    }
    (Array.isArray(layer.layers) ? layer.layers : []).forEach(refusePacking);
  }
}

/** The lines that add a layer to a map of that size, in a group, or in none where that is 0, at a place there. */
export function linesOf(group, at, layer, size) {
  const line = lineOf(group, at, layer);
  const held = encoder.encode(line).length > MAX_LINE ? heldIn(layer, size) : null;
  return held === null ? [line] : [lineOf(group, at, frameOf(layer)), ...held];
}

/** The lines that select the cells of these runs, and no others. */
export function selecting(runs) {
  return runs.map(({ row, column, length }, place) => `select ${place === 0 ? "replace" : "add"} ${column} ${row} ${length} 1`);
}

const lineOf = (group, at, layer) => `layer put ${group} ${at} ${json.said(layer, MEMBERS)}`;

// A layer without what it holds.
function frameOf(layer) {
  const listed = ([name, value]) => [name, ["objects", "layers"].includes(name) ? [] : value];
  return Object.fromEntries(Object.entries(layer).filter(([name]) => name !== "data").map(listed));
}

// The lines that add what a layer holds, to it without that; null where it holds nothing that lines could add.
function heldIn({ id = 0, type, objects, layers, data }, size) {
  if (type === "objectgroup" && Array.isArray(objects)) {
    return objects.map((item) => putLine(id, json.said(item, MEMBERS)));
  }
  if (type === "group" && Array.isArray(layers)) {
    return layers.flatMap((inner, at) => linesOf(id, at, inner, size));
  }
  const values = type === "tilelayer" ? valuesOf(data) : null;
  return values?.length === size.width * size.height ? stamps(id, rowsOf(values, size)) : null;
}

const rowsOf = (values, { width, height }) => Array.from({ length: height }, (_, y) => values.slice(y * width, (y + 1) * width));

// The lines that stamp the rows of a map's width that are not empty.
function stamps(layer, rows) {
  const isFilled = (row) => row.some((value) => value !== 0);
  const [top, last] = [rows.findIndex(isFilled), rows.findLastIndex(isFilled)];
  const parts = top < 0 ? [] : [...partsOf(rows.slice(top, last + 1))];
  return parts.map(({ first, values }) => `stamp ${layer} 0 ${top + first} ${rows[0].length} ${values}`);
}

// The values of a tile layer, which a file has as numbers or in base64; null where it has neither.
function valuesOf(data) {
  if (Array.isArray(data)) {
    return data.every(Number.isInteger) ? data : null;
  }
  try {
    const bytes = Uint8Array.from(atob(data), (each) => each.charCodeAt(0));
    const words = new DataView(bytes.buffer);
    return Array.from({ length: bytes.length / 4 }, (_, at) => words.getUint32(4 * at, true));
  } catch {
    return null;
  }
}
