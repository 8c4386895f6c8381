// SPDX-License-Identifier: MIT OR Apache-2.0
// Writes the report of each file that is named, as the JavaScript package gives it: by the file's path, and by its bytes.
import { readFileSync, statSync } from "node:fs";
import { Module, report } from "../../js/roskevad.js";

const module = await Module.load();
const told = [];
for (const path of JSON.parse(readFileSync(0, "utf8"))) {
  const byPath = await report(path, { module });
  const isFile = statSync(path, { throwIfNoEntry: false })?.isFile();
  const { file, ...byBytes } = isFile ? await report(readFileSync(path), { module }) : { file: null };
  told.push([byPath, file, byBytes]);
}
console.log(JSON.stringify(told));
