// SPDX-License-Identifier: MIT OR Apache-2.0
// What is in a map, or why it is not opened: a report for scripts, with the members that `map_report --json` has.
import { Refused, refusedCall } from "./faults.js";
import { bytesFrom } from "./module.js";

const SIZES = ["width", "height", "tilewidth", "tileheight", "nextlayerid", "nextobjectid"];
const PIXELS = ["x", "y", "width", "height"];
// What an object is drawn as, where it has a member of that name and is no tile.
const SHAPES = ["ellipse", "point", "polygon", "polyline", "text"];
const MISSING = 50;
const STORE_FAILED = 51;
const NOT_JSON = 60;

/** What `report` tells of a source, by an editor of its own, which is closed then. */
export async function reported(editor, source) {
  const file = nameOf(source);
  try {
    const document = await editor.open(await dataOf(source), "map");
    return { file, refused: null, ...mapOf(document) };
  } catch (fault) {
    if (!(fault instanceof Refused)) {
      throw fault;
    }
    return { file, refused: refusedOf(fault) };
  } finally {
    editor.close();
  }
}

// The name of a file, as it was given; null of bytes.
function nameOf(source) {
  return typeof source === "string" ? source : source?.href ?? source?.name ?? null;
}

// The bytes of a file. Throws Refused where it can't be read; its cause is what the host has thrown.
async function dataOf(source) {
  try {
    return await bytesFrom(source);
  } catch (cause) {
    if (cause instanceof TypeError && !isPlace(source)) {
      throw cause;
    }
    const isMissing = cause.code === "ENOENT" || cause.status === 404;
    throw refusedCall(isMissing ? MISSING : STORE_FAILED, "report(..)", { why: cause.message, cause });
  }
}

function isPlace(source) {
  return typeof source === "string" || typeof source?.href === "string";
}

// ---- a map that is refused

function refusedOf({ code, words, why, placeInMap }) {
  const told = { code, words, places: placesOf(code, placeInMap) };
  return why === null ? told : { ...told, reason: why };
}

function placesOf(code, place) {
  if (place === null) {
    return [];
  }
  const { path, line, column, text } = place;
  return code === NOT_JSON ? [{ line, column, text }] : [{ path, text }];
}

// ---- a map that is opened

function mapOf(document) {
  const outline = document.outline();
  const layers = [...drawn(outline.layers, null)];
  const objects = layers.flatMap(([layer]) => (layer.type === "objectgroup" ? layer.objects.map((each) => objectOf(each, layer.id)) : []));
  return {
    ...Object.fromEntries(SIZES.map((name) => [name, outline[name]])),
    orientation: textIn(outline, "orientation"),
    properties: propertiesOf(outline),
    layers: layers.map(([layer, group]) => layerOf(document, layer, group)),
    objects,
    tilesets: outline.tilesets.map(({ firstgid, source = null }) => ({ firstgid, source })),
  };
}

// Layers in drawing order, a group before those in it, each with the id of its group.
function* drawn(layers, group) {
  for (const layer of layers) {
    yield [layer, group];
    if (layer.type === "group") {
      yield* drawn(layer.layers, layer.id);
    }
  }
}

// A member that is a text; an empty one where it is none.
function textIn(members, name) {
  return typeof members[name] === "string" ? members[name] : "";
}

function propertiesOf({ properties = [] }) {
  return properties.map(({ name, type = "string", value }) => ({ name, type, value }));
}

function layerOf(document, layer, group) {
  const { id, type, name = "", visible = true } = layer;
  const told = { id, type, name, group, visible };
  if (type === "tilelayer") {
    const cells = document.layers.get(id).cells();
    Object.assign(told, { cells: cells.length, set: cells.reduce((count, value) => count + (value === 0 ? 0 : 1), 0) });
  }
  return { ...told, properties: propertiesOf(layer) };
}

function objectOf(members, layer) {
  const { id, name = "", rotation = 0, visible = true, gid = null } = members;
  const shape = gid === null ? SHAPES.find((each) => each in members) ?? "rectangle" : "tile";
  const pixels = Object.fromEntries(PIXELS.map((each) => [each, members[each] ?? 0]));
  const kind = textIn(members, "class") || textIn(members, "type");
  return { id, layer, name, class: kind, shape, rotation, ...pixels, visible, gid, properties: propertiesOf(members) };
}
