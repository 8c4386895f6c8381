// SPDX-License-Identifier: MIT OR Apache-2.0
// Opens, edits, undoes and saves maps of a folder: NAME is saved as saved_NAME.
//
//   node tests/module/save_maps.mjs FOLDER NAME..
import { readFileSync, writeFileSync } from "node:fs";
import { Editor } from "../../js/roskevad.js";

const [, , folder, ...names] = process.argv;
for (const name of names) {
  const editor = await Editor.create();
  await editor.openMap("m", readFileSync(`${folder}/${name}`));
  for (const line of ["layer add tile New", "prop set map a int 1", "goto 0"]) {
    editor.step(line);
  }
  writeFileSync(`${folder}/saved_${name}`, await editor.saveMap());
  editor.close();
}
