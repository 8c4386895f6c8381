// SPDX-License-Identifier: MIT OR Apache-2.0
// Does the calls of tests/test_call_lines.py on documents, and tells how these stand then.
import { readFileSync } from "node:fs";
import * as roskevad from "../../js/roskevad.js";

const Work = Object.getPrototypeOf(async () => 0).constructor;

// The active document, as lines tell it.
function stateOf(editor) {
  const steps = [];
  const count = Number(/\/(\d+) /.exec(editor.step("status"))?.[1] ?? 0);
  for (let place = 0; place < count; place++) {
    steps.push([editor.step(`text ${place}`), editor.actionText(place), editor.isMacro(place)]);
  }
  const isNone = editor.step("list").split(" ").every((name) => !name.startsWith("*"));
  return [editor.step("list"), editor.step("status"), isNone ? "" : editor.step("show"), steps, editor.selection()];
}

async function cameOf({ lines, code, values }) {
  const editor = await roskevad.Editor.create();
  editor.runLines(lines);
  const document = editor.active;
  const names = ["roskevad", "editor", "document"];
  const call = (text) => new Work(...names, text)(roskevad, editor, document);
  try {
    await call(code);
    const told = [];
    for (const value of values) {
      told.push(await call(`return ${value};`));
    }
    return { state: stateOf(editor), told };
  } catch (fault) {
    return { state: String(fault.stack), told: [] };
  } finally {
    editor.close();
  }
}

const came = [];
for (const scenario of JSON.parse(readFileSync(0, "utf8"))) {
  came.push(await cameOf(scenario));
}
console.log(JSON.stringify(came));
