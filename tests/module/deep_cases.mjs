// SPDX-License-Identifier: MIT OR Apache-2.0
// The cases that take the most of the stack: 64 macros in one another, 16 groups in one another, JSON
// that is 127 deep, and lines of 65,535 bytes.
const LONGEST_LINE = 65_535;
const [MACROS, GROUPS, DEEPEST] = [64, 16, 127];

function macros() {
  const levels = Array.from({ length: MACROS }, (_, level) => level);
  return [
    "new m 32 32 16 16 t.tsj",
    ...levels.flatMap((level) => [`begin Level ${level}`, `stamp 1 ${level % 32} 0 1 ${level + 1}`]),
    ...levels.flatMap((level) => [`stamp+ 1 ${level % 32} 1 1 ${level + 1}`, "end"]),
    "undo", "redo", "goto 0", "goto 1", "text 0", "undotext", "undo", "clear", "discard m",
  ];
}

// A stamp of whole rows whose line has the most bytes: as many values of two digits as that takes.
function longStamp(head, width) {
  const room = LONGEST_LINE - head.length;
  const values = Math.floor(room / (2 * width)) * width;
  const twice = room - (2 * values - 1);
  return head + [...Array(twice).fill("12"), ...Array(values - twice).fill("5")].join(",");
}

const LONG_STAMPS = [
  "new m 4096 16 16 16 t.tsj", longStamp("stamp 1 0 0 4096 ", 4096),
  longStamp("stamp+ 1 0 1 4096 ", 4096), "undo", "goto 0", "goto 9", "show", "discard m",
];
const LONG_LINES = ["prop set map kind string ", "begin ", "layer rename 1 ", "# ", "undo"].map(
  (head) => head + "n".repeat(LONGEST_LINE - head.length),
);

// A value of JSON that is so deep: arrays or objects around a number.
function nested(depth, isArray) {
  return isArray
    ? "[".repeat(depth) + "0" + "]".repeat(depth)
    : '{"a":'.repeat(depth) + "0" + "}".repeat(depth);
}

function layer(id, type, members) {
  const own = { id, name: `layer ${id}`, opacity: 1, type, visible: true, x: 0, y: 0 };
  return `{${JSON.stringify(own).slice(1, -1)},${members}}`;
}

const THING = JSON.stringify({
  height: 8, id: 1, name: "key", properties: [{ name: "kind", type: "string", value: "a" }],
  rotation: 0, type: "", visible: true, width: 8, x: 1, y: 1,
});

// Two layers within so many groups, the first with a member that is not known.
function grouped(depth, kept) {
  const tiles = layer(1, "tilelayer", `"data":[1,2,3,4],"height":2,"width":2,"kept":${kept}`);
  const things = layer(2, "objectgroup", `"draworder":"topdown","objects":[${THING}]`);
  let layers = `${tiles},${things}`;
  for (let level = 0; level < depth; level++) {
    layers = layer(10 + level, "group", `"layers":[${layers}]`);
  }
  return layers;
}

function mapOf(layers, kept) {
  const own = {
    height: 2, infinite: false, nextlayerid: 99, nextobjectid: 9, orientation: "orthogonal",
    renderorder: "right-down", tileheight: 16, tilesets: [{ firstgid: 1, source: "t.tsj" }],
    tilewidth: 16, type: "map", version: "1.10", width: 2,
  };
  return `{${JSON.stringify(own).slice(1, -1)},"layers":[${layers}],"kept":${kept}}`;
}

const DEEP_LINES = [
  "show", "stamp 1 0 0 2 5,6,7,8", "fill 1 0 0 9", "layer rename 1 Base", "layer show 2 no",
  "object move 1 5 5", "object move+ 1 6 6", "prop set object:1 kind string b",
  "prop set layer:1 deep int 5", "object add 2 0 0 1 1 door", "object remove 1", "resize 3 3 1 1",
  "select replace 0 0 2 2", "begin M", "erase 1 0 0 2 2", "end", "undo", "goto 0", "goto 99",
  "save saved.tmj", "show", "discard deep", "open deep saved.tmj", "discard deep",
];

// Opens a map with a member that is as deep as it may be, and edits it. One that is deeper is refused.
function deepMap(editor, run, made) {
  for (let depth = DEEPEST; ; depth--) {
    editor.putFile("deep.tmj", made(depth));
    try {
      run(["open deep deep.tmj"]);
      break;
    } catch (fault) {
      if (fault.code !== 60 || depth < DEEPEST / 2) {
        throw fault;
      }
    }
  }
  run(DEEP_LINES);
}

/** Has an editor do them all. `run` has it do lines, none of which is refused. */
export function deepCases(editor, run = (lines) => lines.forEach((line) => editor.step(line))) {
  run(macros());
  run(LONG_STAMPS);
  LONG_LINES.forEach((line) => editor.stepBytes(line));
  for (const isArray of [true, false]) {
    deepMap(editor, run, (depth) => mapOf(grouped(0, 0), nested(depth, isArray)));
    deepMap(editor, run, (depth) => mapOf(grouped(GROUPS, nested(depth - 2 * GROUPS, isArray)), 0));
  }
}
