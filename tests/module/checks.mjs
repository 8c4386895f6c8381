// SPDX-License-Identifier: MIT OR Apache-2.0
// Checks of the package that hold in Node and in browsers alike. Each fails by what it throws.
import {
  BadModule, Broken, Closed, Editor, Module, NoMemory, NotFound, Refused, VERSION,
} from "../../js/roskevad.js";
import {
  sections, stackOf, withLibraryVersion, withMark, withMostPages, withStack,
} from "./module_bytes.mjs";
import { deepCases } from "./deep_cases.mjs";
import { DOCUMENT_CHECKS } from "./document_checks.mjs";
import { loaded } from "./loaded.mjs";
import { MAP_CHECKS } from "./map_checks.mjs";
import { refused, same, thrown, thrownLater } from "./wanted.mjs";

const encoder = new TextEncoder();
const decoder = new TextDecoder();
// Enough for an editor, and too little for the deep cases.
const SMALL_STACK = 32_768;
const NEW = "new town 4 3 16 16 town.tsj";

// The calls of an editor that a closed or a broken one answers by a fault.
const CALLS = [
  (editor) => editor.step("status"),
  (editor) => editor.stepBytes(encoder.encode("status")),
  (editor) => editor.putFile("a", "a"),
  (editor) => editor.file("a"),
  (editor) => editor.removeFile("a"),
  (editor) => editor.files(),
  (editor) => editor.selection(),
  (editor) => editor.cleanIndex(),
  (editor) => editor.isMacro(0),
  (editor) => editor.runLines(["status"]),
  (editor) => editor.runBytes("status"),
  (editor) => editor.map(),
  (editor) => editor.outline(),
  (editor) => editor.cells(1, 0, 0, 1, 1),
  (editor) => editor.actionText(0),
  (editor) => editor.lastLayerId(),
  (editor) => editor.lastObjectId(),
  (editor) => editor.origin(),
];

async function linesAndReplies() {
  const editor = await Editor.create();
  same(editor.step(NEW), "ok 0/0 clean 0");
  same(editor.step("stamp 1 0 0 4 7,7,7,7"), "ok 1/1 dirty 0");
  same(editor.step(""), "");
  same(editor.step("# a remark"), "");
  const { code, words, line, forms } = thrown(Refused, () => editor.step("stamp"));
  same([code, line], [4, "stamp"]);
  same(forms, ["stamp LAYER X Y WIDTH TILES", "stamp+ LAYER X Y WIDTH TILES"]);
  const wrong = "word 2 is missing: a whole number from 0 to 4294967295, with no zero in front";
  same(thrown(Refused, () => editor.step("stamp")).message, `4 ${words}: stamp\n  ${[wrong, ...forms].join("\n  ")}`);
  same(thrown(Refused, () => editor.step("undo undo")).forms, ["undo"]);
  same(thrown(Refused, () => editor.step("constructor")).code, 3);
  same(editor.step("layer rename 1 Straße 🌲"), "ok 2/2 dirty 0");
  same(JSON.parse(editor.step("show").slice("map ".length)).layers[0].name, "Straße 🌲");
  same(editor.step("undotext").startsWith("text "), true);
  editor.close();
}

async function bytesAsLines() {
  const editor = await Editor.create();
  const said = (bytes) => decoder.decode(editor.stepBytes(bytes) ?? new Uint8Array());
  same(said(encoder.encode("status")), "ok none clean");
  same(editor.stepBytes(new Uint8Array()), null);
  same(said(Uint8Array.of(255, 0, 10)).startsWith("no "), true);
  for (const length of [65_534, 65_535, 65_536, 70_000, 1_000_000]) {
    same(said(new Uint8Array(length).fill(97)).startsWith("no "), true, `${length} bytes:`);
  }
  same(said(encoder.encode("status")), "ok none clean");
  editor.close();
}

async function filesInMemory() {
  const editor = await Editor.create();
  same(editor.files(), []);
  same(editor.file("none"), null);
  same(editor.removeFile("none"), false);
  const large = new Uint8Array(1_000_000).map((_, at) => at * 7);
  editor.putFile("large", large);
  editor.putFile("empty", "");
  editor.putFile("text.tmj", "Straße");
  editor.putFile("part", large.subarray(3, 8));
  editor.putFile("buffer", large.buffer);
  same(editor.files(), ["buffer", "empty", "large", "part", "text.tmj"]);
  same(editor.file("large").every((byte, at) => byte === large[at]), true);
  same(editor.file("buffer").length, large.length);
  same([...editor.file("part")], [...large.subarray(3, 8)]);
  same(editor.file("empty").length, 0);
  same(decoder.decode(editor.file("text.tmj")), "Straße");
  same(editor.removeFile("large"), true);
  same(editor.file("large"), null);
  for (const name of ["", ".a", "a/b", "ä", "a".repeat(101), "a".repeat(100_000)]) {
    thrown(RangeError, () => editor.putFile(name, "a"));
    same(editor.file(name), null);
    same(editor.removeFile(name), false);
  }
  for (const data of [undefined, null, 5, {}, [1, 2]]) {
    thrown(TypeError, () => editor.putFile("a", data));
  }
  editor.close();
}

async function whatNoLineTells() {
  const editor = await Editor.create();
  same([editor.cleanIndex(), editor.isMacro(0), editor.selection()], [null, null, []]);
  editor.step(NEW);
  editor.step("begin M");
  editor.step("stamp 1 0 0 1 5");
  editor.step("end");
  editor.step("select replace 1 1 2 2");
  same(editor.selection(), [[1, 1, 2], [2, 1, 2]]);
  same(editor.cleanIndex(), 0);
  same([0, 1].map((at) => editor.isMacro(at)), [true, false]);
  same([99, -1, 1.5, NaN, 2 ** 32].map((at) => editor.isMacro(at)), [null, null, null, null, null]);
  editor.step("goto 0");
  editor.step("stamp 1 0 0 1 6");
  same(editor.cleanIndex(), 0);
  editor.close();
}

async function manyLines() {
  const editor = await Editor.create();
  same(editor.runLines([]), []);
  same(editor.runLines([NEW, "# a remark", "", "stamp 1 0 0 1 5"]), ["ok 0/0 clean 0", "ok 1/1 dirty 0"]);
  const lines = ["undo", "", "stamp 9 0 0 1 5", "redo"];
  const refusal = thrown(Refused, () => editor.runLines(lines));
  same([refusal.code, refusal.line, refusal.place], [30, "stamp 9 0 0 1 5", 2]);
  same(refusal.replies, ["ok 0/1 clean 0"]);
  thrown(RangeError, () => editor.runLines(["redo", "redo\nredo"]));
  same(editor.step("status"), "ok 0/1 clean 0");
  same(decoder.decode(editor.runBytes("redo\n\nstamp 9 0 0 1 5\nundo")).split("\n"), [
    "ok 1/1 dirty 0", "no 30 no such layer", "ok 0/1 clean 0", "",
  ]);
  same(editor.runBytes("").length, 0);
  // Each reply is longer than the place that replies are copied through.
  editor.step("resize 200 200 0 0");
  const shown = editor.step("show");
  same(shown.length > 70_000, true);
  same(editor.runLines(Array(5).fill("show")), Array(5).fill(shown));
  same(thrown(Refused, () => editor.runLines(["show", "show", "x"])).place, 2);
  const long = thrown(Refused, () => editor.runLines(["status", "x".repeat(70_000), "status"]));
  same([long.code, long.place, long.replies.length], [1, 1, 1]);
  const many = Array.from({ length: 30_000 }, (_, at) => `stamp 1 ${at % 200} 0 1 ${1 + (at % 2)}`);
  same(editor.runLines(many).at(-1), editor.step("status"));
  same(decoder.decode(editor.runBytes(`${many.join("\n")}\n`)).split("\n").length, 30_001);
  editor.close();
}

async function cellsAndOutlines() {
  const editor = await Editor.create();
  same(editor.cells(1, 0, 0, 1, 1), null);
  for (const call of [() => editor.outline(), () => editor.map(), () => editor.lastLayerId()]) {
    refused(10, call);
  }
  editor.runLines([NEW, "layer add object Doors", "object add 2 0 0 8 8 key", "stamp 1 1 0 2 5,6,7,4294967295"]);
  same([...editor.cells(1, 0, 0, 4, 3)], [0, 5, 6, 0, 0, 7, 4_294_967_295, 0, 0, 0, 0, 0]);
  same([...editor.cells(1, 1, 1, 2, 1)], [7, 4_294_967_295]);
  const none = [
    [2, 0, 0, 1, 1], [9, 0, 0, 1, 1], [1, 0, 0, 5, 1], [1, 4, 0, 1, 1], [1, -1, 0, 1, 1],
    [1, 0, 0, 2 ** 32, 1], [1, 0.5, 0, 1, 1], [1, 2 ** 32 - 2, 0, 5, 1], [NaN, 0, 0, 1, 1],
  ];
  for (const where of none) {
    same(editor.cells(...where), null, `cells of ${where}:`);
  }
  const map = editor.map();
  delete map.layers[0].data;
  same(editor.outline(), map);
  same([editor.layerId("Doors"), editor.lastLayerId()], [2, 2]);
  same([editor.objectId("key"), editor.lastObjectId()], [1, 1]);
  thrown(NotFound, () => editor.layerId("Walls"));
  thrown(NotFound, () => editor.objectId("Doors"));
  same([0, 2, 9, -1, 0.5].map((at) => editor.actionText(at)), [
    "add layer", "stamp tiles", null, null, null,
  ]);
  editor.runLines(["resize 1024 1024 0 0", "fill 1 9 9 3"]);
  same(editor.cells(1, 0, 0, 1024, 1024).reduce((sum, value) => sum + (value === 3), 0), 1024 * 1024 - 4);
  editor.close();
}

async function closedEditors() {
  const editor = await Editor.create({ limit: 5 });
  editor.close();
  editor.close();
  for (const call of CALLS) {
    thrown(Closed, () => call(editor));
  }
  for (const limit of [-1, 1.5, 1_000_001, NaN, "5", null]) {
    await thrownLater(RangeError, Editor.create({ limit }), `the limit ${limit}`);
  }
  const strict = await Editor.create({ limit: 1 });
  strict.step(NEW);
  strict.step("stamp 1 0 0 1 5");
  same(strict.step("stamp 1 0 0 1 6"), "ok 1/1 dirty 0");
  strict[Symbol.dispose ?? "close"]();
  thrown(Closed, () => strict.step("status"));
}

async function editorsOfOneModule() {
  const module = await Module.load();
  const [first, second] = [await Editor.create({ module }), new Editor(module, { limit: 1 })];
  first.step(NEW);
  same(second.step("status"), "ok none clean");
  first.putFile("a", "a");
  same(second.files(), []);
  second.step("new other 2 2 1 1 s");
  same([first.step("list"), second.step("list")], ["docs *town", "docs *other"]);
  first.close();
  same(second.step("stamp 1 0 0 1 5"), "ok 1/1 dirty 0");
  second.close();
  const others = await Promise.all([Editor.create(), Editor.create()]);
  others[0].step(NEW);
  same(others.map((editor) => editor.step("list")), ["docs *town", "docs"]);
  others.forEach((editor) => editor.close());
}

// Stamps cells until a line is refused for want of memory, and gives how many steps there are.
function stampedFull(editor) {
  editor.step("new full 256 256 16 16 t.tsj");
  for (let at = 0; at < 1_000_000; at++) {
    const line = `stamp 1 ${at % 256} ${(at >> 8) % 256} 1 ${1 + (at % 900) + ((at >> 16) % 2)}`;
    const reply = decoder.decode(editor.stepBytes(line));
    if (reply === "no 90 no memory") {
      return at;
    }
    same(reply, `ok ${at + 1}/${at + 1} dirty 0`);
  }
  throw new Error("memory has not ended");
}

async function editorsWithoutMemory({ bytes }) {
  const module = await Module.load(withMostPages(bytes, 150));
  const [first, second] = [new Editor(module), new Editor(module)];
  second.step(NEW);
  const steps = stampedFull(first);
  same(first.step("status"), `ok ${steps}/${steps} dirty 0`);
  same(second.step("status"), "ok 0/0 clean 0");
  thrown(NoMemory, () => second.putFile("large", new Uint8Array(8_000_000)));
  same(second.files(), []);
  refused(90, () => {
    for (let at = 0; at < 100_000; at++) {
      second.step(`stamp 1 0 0 1 ${1 + (at % 2)}`);
    }
  });
  same(first.step("undo"), `ok ${steps - 1}/${steps} dirty 0`);
  same(first.step("goto 0"), `ok 0/${steps} clean 0`);
  same(first.step("tile 1 0 0"), "tile 0");
  same(first.step(`goto ${steps}`), `ok ${steps}/${steps} dirty 0`);
  first.close();
  same(second.step("stamp 1 0 0 1 9").startsWith("ok "), true);
  second.putFile("large", new Uint8Array(1_000_000));
  second.close();
}

async function modulesThatAreNone({ bytes }) {
  const ends = sections(bytes).flatMap(({ at, content, end }) => [at, content, end]);
  const lengths = [0, 1, 4, 8, ...ends, ...ends.map((end) => end - 1), bytes.length - 1];
  for (const length of lengths.filter((length) => length < bytes.length)) {
    const cut = Module.load(bytes.slice(0, length));
    const { message } = await thrownLater(BadModule, cut, `${length} bytes`);
    same(message.includes("cut short"), true, message);
  }
  for (const other of ["9.9.9", "0.10.0", ""]) {
    const fault = await thrownLater(BadModule, Module.load(withMark(bytes, VERSION, other)), other);
    same(/its version is|cut short/.test(fault.message), true, fault.message);
  }
  const older = withLibraryVersion(bytes, VERSION, VERSION.replace(/./g, "9"));
  same((await thrownLater(BadModule, Module.load(older), "older")).message.includes(VERSION), true);
  for (const source of [null, 5, {}]) {
    await thrownLater(TypeError, Module.load(source), `the source ${source}`);
  }
}

async function modulesFromEachSource({ bytes, address }) {
  const place = `${address}/js/roskevad.wasm`;
  const sources = [
    undefined, bytes, bytes.buffer.slice(0), new DataView(bytes.buffer), place, new URL(place),
    new Blob([bytes]), await fetch(place), await WebAssembly.compile(bytes), await Module.load(),
  ];
  for (const module of sources) {
    const editor = await Editor.create({ module });
    same(editor.step(NEW), "ok 0/0 clean 0");
    editor.close();
  }
  await thrownLater(Error, Module.load(`${address}/js/none.wasm`), "a URL of nothing");
}

// A full stack is broken off in the midst of a line. Each later call of each editor must say so.
async function brokenModules({ bytes }) {
  const module = await Module.load(withStack(bytes, SMALL_STACK));
  const [first, second] = [new Editor(module), new Editor(module)];
  thrown(Broken, () => deepCases(first));
  same(module.isBroken, true);
  for (const editor of [first, second]) {
    for (const call of CALLS) {
      thrown(Broken, () => call(editor));
    }
    editor.close();
  }
  thrown(Broken, () => new Editor(module));
  const other = await Editor.create();
  same(other.step(NEW), "ok 0/0 clean 0");
  other.close();
}

// How much of the stack the deepest cases take: it lies at the bottom, and is filled before with what
// nothing writes there.
async function deepestCases({ bytes }) {
  const { module, memory } = await loaded(bytes);
  const size = stackOf(bytes);
  new Uint8Array(memory.buffer, 0, size).fill(0xa5);
  const editor = new Editor(module);
  deepCases(editor);
  deepCases(editor, (lines) => {
    editor.runLines(lines);
    if (editor.step("status") !== "ok none clean") {
      editor.outline();
    }
  });
  editor.close();
  const taken = size - new Uint8Array(memory.buffer, 0, size).findIndex((byte) => byte !== 0xa5);
  same(taken > 1024 && 4 * taken <= size, true, `of ${size} bytes of the stack ${taken} were taken;`);
}

// Node has its workers in a module of its own.
async function startedWorker() {
  const place = new URL("./worker.mjs", import.meta.url);
  if (typeof process !== "object") {
    return new Worker(place, { type: "module" });
  }
  const { Worker: OfNode } = await import("node:worker_threads");
  return new OfNode(place);
}

async function editorsInWorkers() {
  const worker = await startedWorker();
  const came = await new Promise((give, fail) => {
    const take = (message) => give(message.data ?? message);
    (worker.on ?? worker.addEventListener).call(worker, "message", take);
    (worker.on ?? worker.addEventListener).call(worker, "error", fail);
  });
  same(came, ["ok 0/0 clean 0", "ok 1/1 dirty 0"]);
  await worker.terminate();
}

async function memoryGivenBack() {
  const { module, memory } = await loaded();
  const worked = () => {
    const editor = new Editor(module, { limit: 1000 });
    editor.step("new m 64 64 16 16 t.tsj");
    for (let at = 0; at < 20_000; at++) {
      editor.step(`stamp 1 ${at % 64} ${at % 61} 2 ${1 + (at % 900)},${1 + (at % 7)}`);
      editor.step(at % 3 ? "undo" : "status");
    }
    editor.putFile("a.tmj", editor.step("show").slice("map ".length));
    editor.step("open b a.tmj");
    editor.close();
    return memory.buffer.byteLength;
  };
  // Behind the first turn the free memory begins elsewhere.
  worked();
  const first = worked();
  for (let turn = 0; turn < 5; turn++) {
    same(worked(), first, `turn ${turn}:`);
  }
  // All that was taken is one free place again, between the module's constants and the end.
  const whole = module.take(first - stackOf(await bytesOfPackage()) - 300_000);
  same(memory.buffer.byteLength, first);
  module.giveBack(whole);
}

async function bytesOfPackage() {
  const place = new URL("../../js/roskevad.wasm", import.meta.url);
  if (place.protocol === "file:") {
    const { readFile } = await import("node:fs/promises");
    return new Uint8Array(await readFile(place));
  }
  return new Uint8Array(await (await fetch(place)).arrayBuffer());
}

const CHECKS = [
  linesAndReplies, bytesAsLines, manyLines, filesInMemory, whatNoLineTells, cellsAndOutlines,
  closedEditors, editorsOfOneModule,
  editorsInWorkers, editorsWithoutMemory, modulesThatAreNone, modulesFromEachSource, brokenModules,
  deepestCases, memoryGivenBack, ...MAP_CHECKS, ...DOCUMENT_CHECKS,
];

/** What came of each check: its name, and what is wrong, or null. */
export async function checked(address) {
  const bytes = await bytesOfPackage();
  const came = [];
  for (const check of CHECKS) {
    let fault = null;
    try {
      await check({ bytes, address });
    } catch (thrown) {
      fault = `${thrown}\n${thrown.stack}`;
    }
    came.push([check.name, fault]);
  }
  return came;
}

if (typeof process === "object") {
  console.log(JSON.stringify(await checked(process.argv[2])));
}
