// SPDX-License-Identifier: MIT OR Apache-2.0
// Reads the bytes of files of tilesets, which a file has as a list of texts in base64, and prints of each { members, tiles }, or { why }.
//
//   node tests/module/tilesets.mjs FILE
import { readFileSync } from "node:fs";
import { BadTileset, Editor } from "../../js/roskevad.js";
import { tilesetFile } from "../../js/tileset_files.js";

const [, , path] = process.argv;
const editor = await Editor.create();
const tileset = editor.new("m", 1, 1, 16, 16, "a.tsx").tilesets.first;
const told = JSON.parse(readFileSync(path, "utf8")).map((coded) => {
  const bytes = new Uint8Array(Buffer.from(coded, "base64"));
  const { members } = tilesetFile(editor._module, bytes);
  try {
    return { members, tiles: tileset.tilesIn(bytes) };
  } catch (fault) {
    if (!(fault instanceof BadTileset)) {
      throw fault;
    }
    return { members, why: fault.message };
  }
});
editor.close();
console.log(JSON.stringify(told));
