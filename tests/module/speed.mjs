// SPDX-License-Identifier: MIT OR Apache-2.0
// Times a session on the module, by each of the calls that do lines, in Node or in a page.
//
//   node tests/module/speed.mjs FILE TURNS
import { Editor, Module } from "../../js/roskevad.js";

const WAYS = {
  runBytes: (editor, { bytes }) => editor.runBytes(bytes),
  runLines: (editor, { lines }) => editor.runLines(lines),
  step: (editor, { lines }) => lines.forEach((line) => editor.step(line)),
};

/** The milliseconds of each turn by each call. In a turn a new editor does all lines of a text. */
export async function times(text, turns) {
  const session = { bytes: new TextEncoder().encode(text), lines: text.trimEnd().split("\n") };
  const module = await Module.load();
  const found = {};
  for (const [name, run] of Object.entries(WAYS)) {
    found[name] = [];
    for (let turn = 0; turn < turns; turn++) {
      const editor = new Editor(module);
      const begin = performance.now();
      run(editor, session);
      found[name].push(performance.now() - begin);
      editor.close();
    }
  }
  return found;
}

/** The same of a session that a place gives. */
export async function timesOf(place, turns) {
  return times(await (await fetch(place)).text(), turns);
}

if (typeof process === "object") {
  const { readFileSync } = await import("node:fs");
  console.log(JSON.stringify(await times(readFileSync(process.argv[2], "utf8"), Number(process.argv[3]))));
}
