// SPDX-License-Identifier: MIT OR Apache-2.0
// Checks of maps as Tiled saves them, in Node and in browsers alike. checks.mjs has the others.
import { Closed, Editor, documentName } from "../../js/roskevad.js";
import { refusedLater, same, thrownLater } from "./wanted.mjs";

const encoder = new TextEncoder();
const decoder = new TextDecoder();
const ONLY_TWO = "only zlib and gzip are unpacked: choose another Tile Layer Format in Map > Map Properties";
// What is wrong with packed data.
const DAMAGES = [
  "its packed data are no base64", "its packed data are cut off", "its packed data begin neither as zlib's do nor as gzip's",
  "bytes stand behind its packed data", "its data unpack to more than 4 bytes a cell", "its data unpack to fewer than 4 bytes a cell",
];
const NAME_TAKEN = 'a member has a reserved name, "roskevad" or "roskevad_packed"';
const FORMATS = { zlib: "deflate", gzip: "gzip" };
const [WIDTH, HEIGHT] = [6, 5];
const CELLS = Uint32Array.from({ length: WIDTH * HEIGHT }, (_, at) => 1 + (at % 9));

function base64(bytes) {
  return btoa(Array.from(bytes, (byte) => String.fromCharCode(byte)).join(""));
}

function bytesOf(text) {
  return Uint8Array.from(atob(text), (character) => character.charCodeAt(0));
}

async function streamed(bytes, stream) {
  return new Uint8Array(await new Response(new Blob([bytes]).stream().pipeThrough(stream)).arrayBuffer());
}

const packed = (bytes, compression) => streamed(bytes, new CompressionStream(FORMATS[compression]));
const unpacked = (bytes, compression) => streamed(bytes, new DecompressionStream(FORMATS[compression]));

function tiles(id, members) {
  return { id, name: `Layer ${id}`, opacity: 1, type: "tilelayer", visible: true, x: 0, y: 0, ...members };
}

function things(id, ...objects) {
  return { id, name: `Layer ${id}`, objects, opacity: 1, type: "objectgroup", visible: true, x: 0, y: 0 };
}

function thing(id, members) {
  const always = { height: 0, name: "", rotation: 0, type: "", visible: true, width: 0 };
  return { id, ...always, x: 0, y: 0, ...members };
}

function mapOf(layers, members) {
  const tree = {
    compressionlevel: -1, height: HEIGHT, infinite: false, layers, nextlayerid: 50, nextobjectid: 100,
    orientation: "orthogonal", renderorder: "right-down", tiledversion: "1.10.2", tileheight: 16,
    tilesets: [{ firstgid: 1, source: "a.tsj" }], tilewidth: 16, type: "map", version: "1.10", width: WIDTH,
  };
  return JSON.stringify({ ...tree, ...members });
}

function packedMap(data, compression, members) {
  const layer = { data, compression: compression, encoding: "base64", height: HEIGHT, width: WIDTH };
  return mapOf([tiles(1, { ...layer, ...members })]);
}

function plainMap() {
  return mapOf([tiles(1, { data: [...CELLS], height: HEIGHT, width: WIDTH })]);
}

async function savedTree(editor) {
  return JSON.parse(decoder.decode(await editor.saveMap()));
}

// A map that needs nothing is opened as by the lines, and saved byte for byte.
async function mapsThatNeedNothing() {
  const [first, second] = [await Editor.create(), await Editor.create()];
  first.putFile("m.tmj", plainMap());
  first.step("open m m.tmj");
  same(await second.openMap("m", encoder.encode(plainMap())), "ok 0/0 clean 0");
  same(second.step("show"), first.step("show"));
  same(decoder.decode(await second.saveMap()), decoder.decode(encoder.encode(plainMap())));
  same(`map ${decoder.decode(await [...second.documents.values()][0].saveBytes({ layout: "compact" }))}`, first.step("show"));
  same([second.files(), second.origin()], [[], [0, 0]]);
  second.putFile("roskevad0.tmj", "mine");
  same(await second.openMap("n", plainMap()), "ok 0/0 clean 0");
  same([second.files(), decoder.decode(second.file("roskevad0.tmj"))], [["roskevad0.tmj"], "mine"]);
  first.close();
  second.close();
}

async function packedMaps() {
  for (const compression of ["zlib", "gzip"]) {
    const editor = await Editor.create();
    const data = base64(await packed(new Uint8Array(CELLS.buffer), compression));
    const spaced = `\n   ${data.slice(0, 8)} ${data.slice(8)}\n`;
    for (const [name, text] of [["a", data], ["b", spaced], ["c", data.replaceAll("/", "\\/")]]) {
      const source = packedMap("DATA", compression, { compression: compression }).replace("DATA", text);
      const given = source.replaceAll("\n", "\\n");
      same(await editor.openMap(name, given), "ok 0/0 clean 0", `${compression} ${name}`);
      same([...editor.cells(1, 0, 0, WIDTH, HEIGHT)], [...CELLS]);
    }
    editor.step("stamp 1 0 0 1 3");
    editor.step("layer add tile New");
    const { layers: [layer, added] } = await savedTree(editor);
    same([layer.compression, layer.encoding, added.compression, added.encoding], [compression, "base64", compression, "base64"]);
    const empty = await unpacked(bytesOf(added.data), compression);
    same([...new Uint32Array(empty.buffer)], [...CELLS].map(() => 0));
    same([layer.roskevad_compression, layer.roskevad_packed], [undefined, undefined]);
    const cells = await unpacked(bytesOf(layer.data), compression);
    same([...new Uint32Array(cells.buffer)], [3, ...CELLS.slice(1)]);
    editor.close();
  }
}

// What is told of a packed layer is as it is open: nothing tells of a note, and what is told opens.
async function treesOfPackedMaps() {
  for (const compression of ["zlib", "gzip"]) {
    const editor = await Editor.create();
    const data = base64(await packed(new Uint8Array(CELLS.buffer), compression));
    const layer = (id) => tiles(id, { data, compression, encoding: "base64", height: HEIGHT, width: WIDTH });
    const group = { id: 2, layers: [layer(3)], name: "Group", opacity: 0.5, type: "group", visible: true, x: 0, y: 0 };
    const document = await editor.open(mapOf([layer(1), group]));
    const [whole, outline] = [document.map(), document.outline()];
    const read = [...document.layers].map(({ members }) => sorted(members));
    same(JSON.stringify([whole, outline, read]).includes("roskevad"), false);
    same([whole.layers[1].opacity, read], [0.5, outline.layers.map(sorted)]);
    same([whole.layers[0].encoding, whole.layers[0].data], ["base64", base64(new Uint8Array(CELLS.buffer))]);
    const again = await editor.open(JSON.stringify(whole));
    same([...again.layers.get(3).cells()], [...CELLS]);
    editor.close();
  }
}

// In a map that a line opens what stands for a fraction is one, as in a map that lines edit.
async function fractionsThatLinesSay() {
  const editor = await Editor.create();
  const written = { data: [...CELLS], height: HEIGHT, width: WIDTH };
  editor.putFile("own.tmj", mapOf([tiles(1, written), things(2, thing(1))], { a: { roskevad: [1072693248, 0] } }));
  editor.step("open own own.tmj");
  editor.runLines(["member set layer:1 opacity 0.5", "member set object:1 x 1.5", 'prop put map {"name":"b","type":"float","value":0.25}']);
  const document = editor.documents.get("own");
  const saved = JSON.parse(decoder.decode(await document.saveBytes()));
  for (const tree of [document.map(), saved]) {
    same([tree.a, tree.layers[0].opacity, tree.layers[1].objects[0].x, tree.properties[0].value], [1, 0.5, 1.5, 0.25]);
  }
  same([document.layers.get(1).opacity, document.objects.get(1).x, document.properties.get("b")], [0.5, 1.5, 0.25]);
  editor.step("goto 0");
  same([document.map().layers[0].opacity, document.objects.get(1).x], [1, 0]);
  editor.close();
}

async function damagedRows(compression) {
  const cells = new Uint8Array(CELLS.buffer);
  const whole = await packed(cells, compression);
  const rows = [
    new Uint8Array(), encoder.encode("abcdefgh".repeat(9)), Uint8Array.of(...whole, 120),
    Uint8Array.of(...whole, ...whole), await packed(cells.subarray(1), compression),
    await packed(Uint8Array.of(...cells, 1), compression), await packed(new Uint8Array(10_000_000), compression),
  ];
  for (let at = 1; at < whole.length; at += 5) {
    rows.push(whole.subarray(0, at));
  }
  rows.push(whole.subarray(0, -1));
  return rows.map(base64);
}

async function damagedData() {
  const editor = await Editor.create();
  for (const compression of ["zlib", "gzip"]) {
    for (const [at, data] of [...(await damagedRows(compression)), "a*b=", "abc"].entries()) {
      const { code, words, line, why } = await refusedLater(editor.openMap("m", packedMap(data, compression)));
      same([code, words, line, DAMAGES.includes(why)], [66, "bad data", 'openMap("m")', true], `${compression} ${at}: ${why}`);
    }
  }
  same([editor.files(), editor.step("list")], [[], "docs"]);
  editor.close();
}

// A hundred megabytes in a few bytes.
async function bombs() {
  const editor = await Editor.create();
  const data = base64(await packed(new Uint8Array(100_000_000), "zlib"));
  same((await refusedLater(editor.openMap("m", packedMap(data, "zlib")))).code, 66);
  editor.close();
}

async function mapsThatAreRefused() {
  const editor = await Editor.create();
  const rows = [
    [packedMap("", "zstd"), 65, ONLY_TWO],
    [packedMap("", "lzma"), 65, ONLY_TWO],
    [packedMap("", "zlib", { roskevad_packed: "zlib" }), 51, NAME_TAKEN],
    [mapOf([], { kept: { roskevad: 1 } }), 51, NAME_TAKEN],
    [mapOf([], { kept: Array(200_001).fill(0.5) }), 51, "it has more than 200,000 fractions"],
    [`${"[".repeat(126)}0.5${"]".repeat(126)}`, 51, "set aside or put back, it would nest deeper than 127"],
    ["{", 60, null],
    [Uint8Array.of(34, 255, 34), 60, null],
    ["[1.5]", 69, null],
  ];
  for (const [text, code, why] of rows) {
    const fault = await refusedLater(editor.openMap("m", text));
    same([fault.code, fault.why, fault.line, fault.forms], [code, why, 'openMap("m")', []]);
    same(fault.message.includes(why ?? fault.words), true, fault.message);
  }
  same((await refusedLater(editor.openMap("a b", plainMap()))).code, 4);
  same((await refusedLater(editor.saveMap())).line, "saveMap()");
  same([editor.files(), editor.step("list")], [[], "docs"]);
  editor.close();
}

// Where in its file a map is refused.
async function placesInMaps() {
  const editor = await Editor.create();
  const damaged = packedMap("abc", "zlib");
  const rows = [
    ['{"type":"map",\n"width":"a"}', 63, ["width"], '"a"', 'width is "a"', 2, 9],
    ['{"type":"map"}', 62, ["width"], "absent", "width is absent", 1, 1],
    ["[1,\n2", 60, null, null, "line 2, column 1", 2, 1],
    [damaged, 66, ["layers", 0, "data"], '"abc"', 'layers[0].data is "abc"', 1, damaged.indexOf('"abc"') + 1],
  ];
  for (const [text, code, path, shown, words, line, column] of rows) {
    const fault = await refusedLater(editor.openMap("m", text));
    same([fault.code, fault.placeInMap], [code, { path, isExact: true, shown, text: words, line, column }]);
    const told = path === null ? words : `${words} (line ${line}, column ${column})`;
    same(fault.message.split("\n")[1], `  ${told}`);
  }
  const later = await refusedLater(editor.saveMap());
  same(later.placeInMap, null);
  editor.close();
}

function fractions() {
  const door = thing(1, { x: 10.5, y: -0.25, width: 3.75, height: 8, rotation: 1e300 });
  const line = thing(2, { polyline: [{ x: 0, y: 1.5 }], x: 5e-324, y: 7 });
  return [{ ...things(1, door, line), opacity: 0.125 }];
}

async function mapsWithFractions() {
  const editor = await Editor.create();
  await editor.openMap("m", mapOf(fractions()));
  for (const tree of [editor.map(), editor.outline(), await savedTree(editor)]) {
    same(tree.layers.map(sorted), fractions().map(sorted));
  }
  editor.step("object move 1 10 50");
  const [door] = editor.map().layers[0].objects;
  same([door.x, door.y, door.width, door.rotation], [10.5, 50, 3.75, 1e300]);
  const { layers: [{ objects: [saved] }] } = await savedTree(editor);
  same([saved.x, saved.y, saved.width], [10.5, 50, 3.75]);
  editor.close();
}

// The same value with the members of its objects in order.
function sorted(value) {
  if (Array.isArray(value)) {
    return value.map(sorted);
  }
  if (typeof value !== "object") {
    return value;
  }
  return Object.fromEntries(Object.keys(value).sort().map((name) => [name, sorted(value[name])]));
}

async function infiniteMaps() {
  const cells = await packed(Uint8Array.of(5, 0, 0, 0, 6, 0, 0, 0), "zlib");
  const chunk = { data: base64(cells), height: 1, width: 2, x: -16, y: 32 };
  const layer = tiles(1, {
    chunks: [chunk], compression: "zlib", encoding: "base64", height: 1, startx: -16, starty: 32, width: 2,
  });
  const source = mapOf([layer, things(2, thing(1, { x: -250.5, y: 515.25 }))], { infinite: true });
  const editor = await Editor.create();
  await editor.openMap("m", source);
  const { layers: [, { objects: [{ x, y }] }], infinite } = editor.map();
  same([editor.origin(), infinite, x, y], [[-16, 32], false, 5.5, 3.25]);
  same([...editor.cells(1, 0, 0, 2, 1)], [5, 6]);
  editor.step("stamp 1 0 0 1 7");
  editor.step("undo");
  const saved = await savedTree(editor);
  const data = saved.layers[0].chunks[0].data;
  same([...(await unpacked(bytesOf(data), "zlib"))], [5, 0, 0, 0, 6, 0, 0, 0]);
  saved.layers[0].chunks[0].data = chunk.data;
  same(sorted(saved), sorted(JSON.parse(source)));
  editor.close();
}

// What was set aside is put back in a thing that is read alone: what its map says of how it was made finite
// counts for it.
async function thingsOfInfiniteMaps() {
  const chunk = { data: Array(256).fill(1), height: 16, width: 16, x: -16, y: -16 };
  const layer = tiles(1, { chunks: [chunk], height: 16, opacity: 0.5, startx: -16, starty: -16, width: 16 });
  const float = (name, value) => [{ name, type: "float", value }];
  const first = thing(1, { x: 10.5, y: 3, rotation: 0.25, properties: float("a", 0.1) });
  const layers = [layer, things(2, first, thing(2, { x: 7, y: 3.75 }))];
  const source = mapOf(layers, { infinite: true, properties: float("b", 0.2) });
  const editor = await Editor.create();
  const document = await editor.open(source);
  const [one, two] = document.objects;
  same([one.x, one.y, two.x, two.y], [266.5, 259, 263, 259.75]);
  same([one.members.rotation, [...one.properties]], [0.25, [["a", 0.1]]]);
  same([document.properties.get("b"), document.origin, document.layers.get(1).members.opacity], [0.2, [-16, -16], 0.5]);
  one.move(Math.floor(one.x), 4);
  two.move(263, Math.floor(two.y) + 1);
  same([one.x, one.y, two.x, two.y], [266, 4, 263, 260]);
  same(sorted(document.layers.get(2).members), sorted(document.outline().layers[1]));
  // Columns and rows that come at the left and above move what it says of that; an undo moves it back.
  const other = await editor.open(source, "other");
  const [moved] = other.objects;
  const places = [];
  for (const work of [() => other.extend(2, 1), () => other.undo(), () => other.redo()]) {
    work();
    places.push([moved.x, moved.y, ...other.origin]);
  }
  const longer = [298.5, 275, -18, -17];
  same(places, [longer, [266.5, 259, -16, -16], longer]);
  const { layers: [{ chunks }, { objects }] } = await savedTree(editor);
  same([chunks.length, chunks[0].x, chunks[0].y, objects[0].x, objects[0].y], [1, -16, -16, 10.5, 3]);
  editor.close();
}

// A tile layer whose cells are in base64 in the file says so, also where it was removed and is there again; one
// that is added has numbers.
async function encodingsOfLayers() {
  const written = (id) => tiles(id, { data: base64(new Uint8Array(CELLS.buffer)), encoding: "base64", height: HEIGHT, width: WIDTH });
  const plain = tiles(2, { data: [...CELLS], height: HEIGHT, layers: [5], width: WIDTH });
  const group = { id: 3, layers: [written(4)], name: "Group", opacity: 1, type: "group", visible: true, x: 0, y: 0 };
  const editor = await Editor.create();
  const document = await editor.open(mapOf([written(1), plain, group]));
  const encodings = () => [...document.layers.walk()].map(({ id, members }) => [id, members.encoding ?? null]);
  document.layers.get(4).remove();
  const { id } = document.layers.add("tile", "Added");
  same(encodings(), [[1, "base64"], [2, null], [3, null], [id, null]]);
  document.goto(0);
  same(encodings(), [[1, "base64"], [2, null], [3, null], [4, "base64"]]);
  same([...document.layers].map(({ members }) => sorted(members)), document.outline().layers.map(sorted));
  editor.close();
}

// What is done behind the call of a save does not count as saved.
async function workWhileSaving() {
  const editor = await Editor.create();
  const data = base64(await packed(new Uint8Array(CELLS.buffer), "zlib"));
  await editor.openMap("m", packedMap(data, "zlib"));
  await editor.openMap("other", plainMap());
  editor.step("use m");
  editor.step("stamp 1 0 0 1 3");
  const saving = editor.saveMap();
  editor.step("stamp 1 1 0 1 4");
  const { layers: [layer] } = JSON.parse(decoder.decode(await saving));
  const cells = new Uint32Array((await unpacked(bytesOf(layer.data), "zlib")).buffer);
  same([...cells.slice(0, 2), editor.cleanIndex(), editor.step("status")], [3, 2, 1, "ok 2/2 dirty 0"]);
  editor.step("begin M");
  same((await refusedLater(editor.saveMap())).code, 20);
  editor.step("end");
  editor.close();
}

async function mapsOfClosedEditors() {
  const editor = await Editor.create();
  const data = base64(await packed(new Uint8Array(CELLS.buffer), "zlib"));
  await editor.openMap("m", packedMap(data, "zlib"));
  const [saving, opening] = [editor.saveMap(), editor.openMap("n", packedMap(data, "zlib"))];
  editor.close();
  same([JSON.parse(decoder.decode(await saving)).layers[0].compression, await opening], ["zlib", "ok 0/0 clean 0"]);
  await thrownLater(Closed, editor.openMap("n", plainMap()), "a closed editor");
  await thrownLater(Closed, editor.saveMap(), "a closed editor");
}

async function namesOfDocuments() {
  const names = {
    "my town.v2.tmj": "my_town.v2", "a/b.tmj": "b", ".tmj": "tmj", "": "map", "-.-": "map", "Straße.tmj": "Stra_e",
    "🌲.tmj": "_", "a.": "a.", a: "a",
  };
  for (const [file, wanted] of Object.entries(names)) {
    same(documentName(file), wanted, file);
  }
  same(documentName("a".repeat(99)), "a".repeat(64));
}

export const MAP_CHECKS = [
  mapsThatNeedNothing, packedMaps, treesOfPackedMaps, fractionsThatLinesSay, damagedData, bombs,
  mapsThatAreRefused, mapsWithFractions, infiniteMaps,
  thingsOfInfiniteMaps, encodingsOfLayers, workWhileSaving, mapsOfClosedEditors, namesOfDocuments, placesInMaps,
];
