// SPDX-License-Identifier: MIT OR Apache-2.0
// The files of tilesets, in XML and in JSON, as the library reads them.
import { BadTileset } from "./faults.js";
import { MAX_FILE_BYTES } from "./limits.js";
import { bytesOf } from "./module.js";

const decoder = new TextDecoder();
const TOO_LONG = `its text would be longer than ${MAX_FILE_BYTES.toLocaleString("en-US")} bytes`;

// Why the bytes of a file are no tileset, in words, and where.
function whyNoTileset(module, bytes) {
  const told = module.tilesetFault(bytes);
  if (told === null) {
    return TOO_LONG;
  }
  const { why, line, column } = told;
  return line === null ? why : `${why} (line ${line}, column ${column})`;
}

/**
 * What Tiled's JSON has of a tileset, by the bytes or the text of its file, in XML or in JSON: { members, why }. `members` is null where
 * they are no tileset, and `why` says so in words, with the place. Throws TypeError, NoMemory.
 */
export function tilesetFile(module, data) {
  const bytes = bytesOf(data);
  const text = module.tilesetFile(bytes);
  if (text === null) {
    return { members: null, why: whyNoTileset(module, bytes) };
  }
  return { members: JSON.parse(decoder.decode(text)), why: "" };
}

/** The same members. Throws BadTileset, which names what the file is of; TypeError, NoMemory. */
export function tilesetIn(module, data, name) {
  const { members, why } = tilesetFile(module, data);
  if (members === null) {
    throw new BadTileset(`${name} is no tileset: ${why}`);
  }
  if (members.tilecount === undefined) {
    throw new BadTileset(`${name} is no tileset: it does not say how many tiles there are`);
  }
  return members;
}
