// SPDX-License-Identifier: MIT OR Apache-2.0
// Opens a map, draws a fence, takes it back, draws it again and saves the map:
//
//   node js/examples/fence.js MAP FENCED_MAP
import { readFile, writeFile } from "node:fs/promises";
import { Editor } from "roskevad";

const [from, to] = process.argv.slice(2);
if (!to) {
  console.error("usage: node fence.js MAP FENCED_MAP");
  process.exit(2);
}
const editor = await Editor.create();
const map = await editor.open(await readFile(from), "map");
const [layer] = map.layers;
map.macro("Fence", () => {
  map.stamp(layer, 0, 0, [[7, 7, 7, 7]]);
  map.stamp(layer, 0, 2, [[7, 7, 7, 7]]);
});
console.log(`drawn: ${map}`);
map.undo();
console.log(`undone: ${map}`);
map.redo();
await writeFile(to, await map.saveBytes());
console.log(`saved: ${map}`);
editor.close();
