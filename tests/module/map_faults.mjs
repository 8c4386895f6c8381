// SPDX-License-Identifier: MIT OR Apache-2.0
// Prints how each of the maps m0, m1, .. of a folder is refused: [code, why, place], where the place is a list or null; or null where it is opened.
//
//   node tests/module/map_faults.mjs FOLDER COUNT
import { readFileSync } from "node:fs";
import { Editor, Module, Refused } from "../../js/roskevad.js";

const [, , folder, count] = process.argv;
const module = await Module.load();

async function refusalOf(bytes) {
  const editor = new Editor(module, { limit: 0 });
  try {
    await editor.openMap("m", bytes);
    return null;
  } catch (fault) {
    if (!(fault instanceof Refused)) {
      throw fault;
    }
    const { code, placeInMap, why } = fault;
    const place = placeInMap && ["path", "isExact", "shown", "text", "line", "column"].map((name) => placeInMap[name]);
    return [code, why, place];
  } finally {
    editor.close();
  }
}

const rows = [];
for (let at = 0; at < Number(count); at++) {
  rows.push(await refusalOf(readFileSync(`${folder}/m${at}`)));
}
console.log(JSON.stringify(rows));
