// SPDX-License-Identifier: MIT OR Apache-2.0
// Prints what a new map, with a stamp, is saved as: without a layout, in each, and again without one; and how a layout is refused
// that there is not.
import { Editor } from "../../js/roskevad.js";

const editor = await Editor.create();
const made = editor.new("made", 4, 3, 16, 16, "town.tsj");
made.stamp(1, 0, 0, [[5]]);
const decoder = new TextDecoder();
const said = [];
for (const layout of [undefined, "compact", "tiled", "rows", null]) {
  said.push(decoder.decode(await made.saveBytes({ layout })));
}
const fault = await made.saveBytes({ layout: "xml" }).catch((thrown) => thrown);
console.log(JSON.stringify([said, fault.name, fault.message]));
editor.close();
