// SPDX-License-Identifier: MIT OR Apache-2.0
// Opens each map of a folder that the file stamps.json names, and saves it as same_NAME; undoes an edit, and saves it as
// undone_NAME; stamps a cell, and saves it as stamped_NAME, then undoes that, and saves it as back_NAME.
//
//   node tests/module/save_layouts.mjs FOLDER
import { readFileSync, writeFileSync } from "node:fs";
import { Editor } from "../../js/roskevad.js";

const [, , folder] = process.argv;
const stamps = JSON.parse(readFileSync(`${folder}/stamps.json`, "utf8"));
for (const [name, [layer, x, y, value]] of Object.entries(stamps)) {
  const editor = await Editor.create();
  const document = await editor.open(readFileSync(`${folder}/${name}`), "m");
  const save = async (word) => writeFileSync(`${folder}/${word}_${name}`, await document.saveBytes());
  await save("same");
  editor.runLines(["layer add tile New", "prop set map a int 1", "goto 0"]);
  await save("undone");
  document.stamp(layer, x, y, [[value]]);
  await save("stamped");
  document.undo();
  await save("back");
  editor.close();
}
