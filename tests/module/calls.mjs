// SPDX-License-Identifier: MIT OR Apache-2.0
// Tells what the package for JavaScript has, and what its calls throw, for tests/test_calls.py. What is
// given are the lines of a document, and the expressions of the table, by way of JSON.
import * as roskevad from "../../js/roskevad.js";

const { lines, trials, classes } = JSON.parse(process.argv[2]);

// The names of a call's arguments, and of its options.
function argumentsOf(call) {
  const head = /^(?:async\s+)?\*?\s*(?:constructor|[\w$]+)\s*\(([^]*?)\)\s*\{/.exec(String(call))[1];
  const options = /words\.options\(options, \{([^}]*)\}/.exec(String(call));
  const names = (text) => text.split(",").map((each) => each.split(/[=:]/)[0].trim()).filter(Boolean);
  return { plain: names(head).filter((name) => name !== "options"), options: options ? names(options[1]) : [] };
}

function membersOf(kind) {
  const members = Object.create(null);
  for (let each = kind.prototype; each !== Object.prototype; each = Object.getPrototypeOf(each)) {
    for (const [name, { value, get, set }] of Object.entries(Object.getOwnPropertyDescriptors(each))) {
      if (!name.startsWith("_") && !["constructor", "toString"].includes(name) && !(name in members)) {
        members[name] = get ? { isSet: set !== undefined } : argumentsOf(value);
      }
    }
  }
  return members;
}

async function thrown(trial) {
  const editor = await roskevad.Editor.create();
  editor.runLines(lines);
  const document = editor.active;
  const other = (await roskevad.Editor.create()).new("other", 1, 1, 1, 1, "a.tsj");
  const after = (...more) => Boolean(editor.runLines(more));
  const many = (line, count) => after(...Array.from({ length: count }, (_, at) => line.replace("#", at)));
  // The expressions are those of the repository's own table.
  const work = new (Object.getPrototypeOf(async () => 0).constructor)(
    "roskevad", "editor", "document", "other", "after", "many", `return ${trial};`,
  );
  try {
    await work(roskevad, editor, document, other, after, many);
  } catch (fault) {
    return [fault.name, fault.code ?? null, fault.message];
  }
  return ["nothing", null, ""];
}

const came = {};
for (const trial of trials) {
  came[trial] = await thrown(trial);
}
const members = Object.fromEntries(classes.map((name) => [name, membersOf(roskevad[name])]));
// What is set in a constructor is a value, too. The own names of properties are those of the map.
const editor = await roskevad.Editor.create();
editor.runLines(lines);
const document = editor.active;
const made = {
  Document: document, Layers: document.layers, Layer: document.layers.get(1), Objects: document.objects,
  MapObject: document.objects.get(1), Tilesets: document.tilesets,
  Tileset: document.tilesets.get(1), Selection: document.selection, Editor: editor,
};
for (const [name, thing] of Object.entries(made)) {
  for (const own of Object.keys(thing).filter((each) => !each.startsWith("_"))) {
    members[name][own] = { isSet: false };
  }
}
document.discard();
const names = Object.keys(members.Document);
const given = { macro: ["a", () => 0], stamp: [1, 0, 0, [[1]]], erase: [1, 0, 0, 1, 1], on: ["change", () => 0], setMember: ["a", 1], setMembers: [{}] };
const closed = [];
for (const name of names) {
  try {
    const call = document[name];
    if (typeof call === "function") {
      await call.call(document, ...(given[name] ?? [1, 0, 0, 1].slice(0, argumentsOf(call).plain.length)));
    }
  } catch (fault) {
    closed.push(...(fault instanceof roskevad.Closed ? [name] : []));
  }
}
console.log(JSON.stringify({ came, members, closed }));
