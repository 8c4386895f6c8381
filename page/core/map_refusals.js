// SPDX-License-Identifier: MIT OR Apache-2.0
// Words for a map that is refused: the line, the column and the member that are at fault in its file, why, and what to do.
import { MAX_CELLS, MAX_GROUPS, MAX_LAYERS, MAX_OBJECTS, MAX_SIDE } from "../../js/limits.js";
import { grouped } from "../files/image_files.js";

// What each refusal means. Where a member is at fault it stands in front, with what it is.
const WHY = {
  60: "the file ends too early there, or is no map",
  61: "a whole number is wanted",
  62: "each map has that",
  63: "Tiled writes another kind of value there",
  64: "the map is infinite",
  65: "the page cannot unpack that",
  66: "that does not fit the size of the map, or is no tile",
  67: "another one has that id, too",
  68: "that is more than the page takes",
  69: "so this is no map",
};
const FROM_TILED = "Save the map anew with a current Tiled.";
const TO_DO = {
  60: "Take the file from a copy of it, or save the map anew in Tiled.",
  61: FROM_TILED,
  62: FROM_TILED,
  63: FROM_TILED,
  64: "In Tiled, Map > Map Properties has a mark Infinite: take it away.",
  65: "In Tiled, Map > Map Properties has the Tile Layer Format: choose another.",
  66: FROM_TILED,
  67: "In Tiled, make the second one anew, or give it another name.",
  68: `A map has at most ${grouped(MAX_SIDE)} columns and rows, ${grouped(MAX_CELLS)} cells, ${MAX_LAYERS} layers, ${MAX_GROUPS} groups in one another and `
    + `${grouped(MAX_OBJECTS)} objects: make two maps of it. In Tiled, Layer > Ungroup Layers takes groups apart.`,
  69: "Open the map, not its tileset.",
};

export const isOfMap = code => code >= 60 && code <= 69;

// Where a map has its fault, and why, as far as that is known: `line 3, column 11: height is 99999999: that is more than the page takes`.
export function whyRefused({ code, placeInMap, why }) {
  const { line = null, column, path = null, text } = placeInMap ?? {};
  const parts = [line === null ? "" : `line ${line}, column ${column}`, path === null ? "" : text, WHY[code], why];
  return parts.filter(Boolean).join(": ");
}

const capital = words => words[0].toUpperCase() + words.slice(1);

// The same, with what to do about it, where that is known.
export const wordsOfFault = fault => [`${capital(whyRefused(fault))}.`, TO_DO[fault.code]].filter(Boolean).join(" ");
