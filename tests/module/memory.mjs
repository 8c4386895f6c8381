// SPDX-License-Identifier: MIT OR Apache-2.0
// Measures the memory that sessions take on the module.
//
//   node tests/module/memory.mjs peak SESSION [NAME FILE]..   prints the bytes that a session takes
//   node tests/module/memory.mjs leak SESSION TURNS           prints the bytes behind each turn
import { readFileSync } from "node:fs";
import { Editor } from "../../js/roskevad.js";
import { loaded } from "./loaded.mjs";

const [way, path, ...words] = process.argv.slice(2);
const { module, memory } = await loaded();
const before = memory.buffer.byteLength;
const session = readFileSync(path, "utf8").trimEnd().split("\n");
const editor = new Editor(module);
if (way === "peak") {
  for (let at = 0; at < words.length; at += 2) {
    editor.putFile(words[at], readFileSync(words[at + 1]));
  }
  editor.runLines(session);
  console.log(memory.buffer.byteLength - before);
} else {
  const behind = [];
  for (let turn = 0; turn < Number(words[0]); turn++) {
    editor.runLines(session);
    behind.push(memory.buffer.byteLength);
  }
  console.log(JSON.stringify(behind));
}
