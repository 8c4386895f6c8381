// SPDX-License-Identifier: MIT OR Apache-2.0
// What the declarations must take, and what they must not. It is checked, and never run.
import {
  BadModule, BadTileset, Broken, CellArea, Closed, Corners, Document, Editor, Error as MapError, FORMS, InCallback, Layer, MapObject, Module, NoMemory,
  NotFound, OtherType, PropertyType, Refused, Report, ReportedObject, Run, Status, StepRow, Subject, Tile, Told, VERSION, documentName, formsOf, report,
} from "../../js/roskevad.js";

async function used(bytes: Uint8Array): Promise<void> {
  const editor: Editor = await Editor.create({ limit: 0 });
  const reply: string = editor.step("undo");
  const said: Uint8Array | null = editor.stepBytes(bytes);
  const replies: string[] = editor.runLines(["undo"]);
  const all: Uint8Array = editor.runBytes(bytes);
  editor.putFile("a.tmj", bytes);
  editor.putFile("a.tmj", bytes.buffer);
  editor.putFile("a.tmj", "{}");
  const file: Uint8Array | null = editor.file("a.tmj");
  const was: boolean = editor.removeFile("a.tmj");
  const names: string[] = editor.files();
  const opened: string = await editor.openMap(documentName("a.tmj"), bytes);
  const saved: Uint8Array = await editor.saveMap();
  const [first, top]: [number, number] = editor.origin();
  const cells: Uint32Array | null = editor.cells(1, 0, 0, 4, 3);
  const sides: unknown[] = [editor.outline().width, editor.map().height];
  const [[row, column, count]] = editor.selection();
  const sum: number = row + column + count;
  const clean: number | null = editor.cleanIndex();
  const isMacro: boolean | null = editor.isMacro(0);
  const text: string | null = editor.actionText(0);
  const ids: number[] = [editor.layerId("Ground"), editor.objectId("key")];
  ids.push(editor.lastLayerId(), editor.lastObjectId());
  editor[Symbol.dispose]();
  editor.close();

  const town: Document = await editor.open(bytes, "town");
  const made: Document = editor.new("a", 4, 3, 16, 16, "a.tsj");
  const ground: Layer = town.layers.get("Ground");
  town.stamp(ground, 0, 0, [[1, 2], Uint32Array.of(3, 4)], { merge: true });
  const given: Layer = town.macro("A", (document) => document.layers.add("tile", "B"), { action: "a" });
  const id: number = given.valueOf() + town.objects.get(1).id;
  const same: Layer = town.layers.get(given);
  const drawn: number = town.stroke((document) => document.width);
  town.macro("C", () => {
    town.undo();
  });
  town.select(0, 0, 1, 1, { mode: "add" });
  town.properties.set("author", "me", { type: "file" });
  const author: unknown = town.properties.toJSON().author;
  const tile: Tile | null = ground.tile(0, 0);
  const [run]: readonly Run[] = town.selection.runs;
  const status: Status = made.status;
  ground.name = "Grass";
  editor.active = made;
  for (const [name, document] of editor.documents) {
    void [name, document.close(), document.objects.size];
  }
  for (const [x, y] of town.selection) {
    void (x + y);
  }
  const reported: Report = await report(bytes, { module: await Module.load() });
  if (reported.refused === null) {
    const objects: ReportedObject[] = reported.objects;
    void [objects, reported.width];
  } else {
    const told: [number, string, string | undefined] = [reported.refused.code, reported.refused.words, reported.refused.reason];
    void told;
  }
  const ofMaps: MapError[] = [new NotFound(), new OtherType(), new BadTileset(), new Refused(21, "nothing to undo", "undo")];
  const cause: unknown = ofMaps[0].cause;
  void [cause, ofMaps[0] instanceof globalThis.Error];
  const written: Uint8Array = await town.saveBytes();
  const walls: Layer | null = town.layers.find("Walls", "tile");
  const isPoint: boolean = town.objects.get(1).isPoint;
  const door: MapObject = town.objects.get(1);
  [door.name, door.className, door.rotation, door.visible] = ["a", "b", 90, door.tile !== null];
  door.tile = town.tilesets.first?.value(3) ?? null;
  door.tile = tile;
  door.setMember("point", true, { merge: true });
  door.setMembers({ x: 5, polygon: [{ x: 0, y: 0 }] });
  const wasThere: boolean = door.removeMember("point");
  void wasThere;
  const corners: Corners = [[0, 0], Int8Array.of(8, 8), { x: 16, y: -8 }];
  const lake: MapObject = ground.objects.add("", 0, 0.5, 8, 8, {
    polygon: corners, className: "Lake", rotation: 45, visible: false, properties: { deep: true, door, depth: 5 },
  });
  const word: MapObject = ground.objects.add("a", 0, 0, 0, 0, { text: { text: "a", wrap: true }, tile: null, properties: null });
  const copies: MapObject[] = [ground.objects.put(door.members), ground.objects.add("b", 0, 0, 16, 16, { tile: tile ?? 5 }), lake, word];
  const houses: Layer = town.layers.add("group", "Houses");
  const art = town.tilesets.put({ firstgid: 100, source: "art.tsj" }, { renumbers: true });
  const sets: number[] = [art.firstId, town.tilesets.addFromImage(200, "art", "art.png", 128, 128, 16, 16, { margin: 1, spacing: 1 }).firstId];
  void [copies, houses, sets];
  ground.moveInto(houses);
  ground.moveInto("Houses", 0);
  ground.moveInto(null);
  lake.moveInto(ground, 1);
  town.extend(1);
  town.extend(0, 0, 0, 2);
  town.properties.set("shop", { open: true }, { propertyType: "Shop", merge: true });
  town.properties.set("speed", 3, { type: "float" });
  town.properties.set("many", [1, "b"] as const, { type: "list" });
  town.properties.put({ name: "two words", value: door.id });
  const kind: PropertyType = town.properties.typeOf("shop");
  void kind;
  [ground.className, ground.opacity, ground.tint, ground.locked] = ["floor", 1, ground.tint ?? "#ff8800", !ground.locked];
  ground.tint = null;
  ground.setMember("parallaxx", 2, { merge: true });
  ground.setMembers({ name: "Floor", offsetx: 8 });
  [town.className, town.background] = ["level", null];
  town.setMember("renderorder", "left-up");
  town.setMembers({ tilewidth: 8 }, { merge: true });
  const gone: boolean[] = [ground.removeMember("parallaxx"), town.removeMember("renderorder")];
  const own: unknown = town.members.orientation;
  void [gone, own];
  void [given, id, same, drawn, author, tile, run.length, status.depth, written, walls, isPoint, town.tilesets.first?.firstId];
  // @ts-expect-error: a mode is one of four
  town.select(0, 0, 1, 1, { mode: "cut" });
  // @ts-expect-error: what is awaited is awaited before
  town.macro("D", async () => undefined);
  // @ts-expect-error: so it is of a stroke
  town.stroke(() => town.saveBytes());
  // @ts-expect-error: a class is set by its own name
  door.type = "b";
  // @ts-expect-error: a corner is a pair of numbers
  ground.objects.add("a", 0, 0, 0, 0, { polygon: [5] });
  // @ts-expect-error: an object has no such look
  ground.objects.add("a", 0, 0, 0, 0, { circle: true });
  // @ts-expect-error: a kind of a layer is one of four
  town.layers.add("wall", "a");
  // @ts-expect-error: a tileset as a file has it is an object
  town.tilesets.put("art.tsj");
  // @ts-expect-error: a property has a value
  town.properties.set("a", null);
  // @ts-expect-error: a type of properties is one of nine
  town.properties.set("a", 1, { type: "matrix" });
  // @ts-expect-error: an object goes into a layer
  door.moveInto(null);
  // @ts-expect-error: a rotation is a number
  door.rotation = "90";
  // @ts-expect-error: a tint is a text, or null
  ground.tint = 5;
  // @ts-expect-error: members are set by calls
  town.members = {};
  // @ts-expect-error: so is a width
  town.width = 5;
  // @ts-expect-error: an index is only read
  status.index = 5;
  // @ts-expect-error: documents are opened
  new Document();
  // @ts-expect-error: rows are rows of numbers
  town.stamp(1, 0, 0, [["a"]]);

  const end: () => void = town.on("change", ({ cells, became, subject, refusal }) => {
    const area: CellArea | null = cells === "all" ? null : cells;
    const place: number[] = area ? [area.layer, area.x, area.y, area.width, area.height] : [];
    const about: Subject | null = became === "gone" ? null : subject;
    void [place, about?.kind, refusal ?? 0];
  });
  const rows: readonly StepRow[] = [...town.stepsSince(3), ...editor.steps(), ...editor.steps(1, 2)];
  const last: Told = editor.told();
  // @ts-expect-error: there is one event
  town.on("click", () => 0);
  // @ts-expect-error: what is told is only read
  last.index = 4;
  void [end, rows, last];

  const module: Module = await Module.load("roskevad.wasm");
  const second = new Editor(module, { limit: 5 });
  const third = await Editor.create({ module });
  const fourth = await Editor.create({ module: bytes });
  const fifth = await Editor.create({ module: { href: "file:///roskevad.wasm" } });
  const isBroken: boolean = module.isBroken;
  const refused = new Refused(4, "bad word", "undo undo");
  const faults: Error[] = [refused, new Closed(), new InCallback(), new NoMemory(), new Broken(), new BadModule()];
  const forms: readonly string[] = [...refused.forms, ...(FORMS.get("undo") ?? []), ...formsOf("u")];
  const why: string | null = refused.why;
  const told: [number, string, string, string] = [refused.code, refused.words, refused.line, VERSION];
  const before: readonly string[] = refused.place === null ? [] : refused.replies;

  // @ts-expect-error: a line is a text
  editor.step(5);
  // @ts-expect-error: a saved map comes later
  editor.putFile("a.tmj", editor.saveMap());
  // @ts-expect-error: a limit is a number
  await Editor.create({ limit: "5" });
  // @ts-expect-error: a source is no number
  await Module.load(5);
  // @ts-expect-error: modules are loaded
  new Module();
  // @ts-expect-error: there may be no cells
  const none: Uint32Array = editor.cells(1, 0, 0, 4, 3);
  // @ts-expect-error: a code is only read
  refused.code = 5;
  // @ts-expect-error: so are the forms
  refused.forms.push("undo");

  void [reply, said, replies, all, file, was, names, cells, sides, sum, clean, isMacro, text, ids];
  void [opened, saved, first, top, why];
  void [second, third, fourth, fifth, isBroken, faults, forms, told, before, none];
}

void used;
