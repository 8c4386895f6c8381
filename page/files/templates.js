// SPDX-License-Identifier: MIT OR Apache-2.0
// The files of templates, `.tx` or `.tj`, which the objects of a map name: read with care, since a file may claim anything.
import { OBJECT, OddMembers, isRecord } from "./members.js";
import { folderOf, plainPath } from "./names.js";

export const isTemplateName = name => /\.(tx|tj)$/i.test(name);

// The longest file that is read.
const LONGEST = 1024 * 1024;
const NUMBERS = ["width", "height", "rotation", "gid"];
const OF_TEXT = { pixelsize: Number, wrap: text => text === "1", bold: text => text === "1", italic: text => text === "1", underline: text => text === "1", strikeout: text => text === "1" };
const OF_PROPERTIES = { int: Number, float: Number, object: Number, bool: text => text === "true" };

const childOf = (at, name) => [...(at?.children ?? [])].find(each => each.tagName === name) ?? null;
const attributesOf = at => Object.fromEntries([...at.attributes].map(({ name, value }) => [name, value]));
const pointsIn = at => (at.getAttribute("points") ?? "").trim().split(/\s+/).map(each => each.split(",").map(Number)).map(([x, y]) => ({ x, y }));

// The properties in an element, as a file in JSON has them.
function propertiesIn(at) {
  return [...(childOf(at, "properties")?.children ?? [])].map(each => {
    const { name = "", type = "string", propertytype, value } = attributesOf(each);
    const inner = type === "class" && Object.fromEntries(propertiesIn(each).map(own => [own.name, own.value]));
    return { name, type, ...(propertytype && { propertytype }), value: inner || (OF_PROPERTIES[type] ?? String)(value ?? each.textContent) };
  });
}

function objectInXml(at) {
  const told = attributesOf(at);
  const made = { ...told, ...Object.fromEntries(NUMBERS.filter(name => name in told).map(name => [name, Number(told[name])])) };
  if ("visible" in told) made.visible = told.visible !== "0";
  for (const flag of ["ellipse", "point"]) if (childOf(at, flag)) made[flag] = true;
  for (const shape of ["polygon", "polyline"]) if (childOf(at, shape)) made[shape] = pointsIn(childOf(at, shape));
  const text = childOf(at, "text");
  if (text) made.text = { ...Object.fromEntries(Object.entries(attributesOf(text)).map(([name, value]) => [name, (OF_TEXT[name] ?? String)(value)])), text: text.textContent };
  const properties = propertiesIn(at);
  return { ...made, ...(properties.length && { properties }) };
}

function readXml(text) {
  // An entity may stand for a text of any length, or for a file; Tiled writes none.
  if (text.includes("<!ENTITY")) return null;
  const root = new DOMParser().parseFromString(text, "application/xml").documentElement;
  const [object, tileset] = ["object", "tileset"].map(name => childOf(root, name));
  if (root.tagName !== "template" || !object) return null;
  return { object: objectInXml(object), tileset: tileset && { firstgid: Number(tileset.getAttribute("firstgid")), source: tileset.getAttribute("source") } };
}

function readJson(text) {
  try {
    return JSON.parse(text);
  } catch {
    return null;
  }
}

// What a file tells: { object, tileset }; null where it is no template.
export function readTemplate(path, bytes) {
  if (bytes.length > LONGEST) return null;
  const text = new TextDecoder().decode(bytes);
  const told = /\.tx$/i.test(path) ? readXml(text) : readJson(text);
  if (!isRecord(told) || !isRecord(told.object)) return null;
  const object = OBJECT.take(told.object, new OddMembers(), "the object of a template");
  const { firstgid, source } = isRecord(told.tileset) ? told.tileset : {};
  return { object, tileset: Number.isInteger(firstgid) && typeof source === "string" ? { firstgid, source } : null };
}

// The templates that objects of the active map name, as far as their files are there.
export class Templates {
  constructor(editor) {
    Object.assign(this, { editor, place: null, known: new Map() });
  }

  // The path of a template from the folder of the files.
  pathOf(template) {
    return plainPath(this.editor.folder + template);
  }

  // What a template says of an object of a map with these tilesets; null where that is not known.
  of(template, tilesets) {
    const found = this.known.get(this.pathOf(template));
    if (!found) return null;
    const { gid, ...object } = found.object;
    const value = gid ? this.valueOf(gid, found.tileset, folderOf(template), tilesets) : null;
    return value === null ? object : { ...object, gid: value };
  }

  // The number that a tile of a template has on a map; null where the map has not its tileset.
  valueOf(gid, tileset, folder, tilesets) {
    const source = tileset && plainPath(folder + tileset.source);
    const set = tilesets.find(each => each.source && plainPath(each.source) === source);
    return set ? gid - tileset.firstgid + set.firstgid : null;
  }

  // Whether the file of a template is there, and is one.
  has(template) {
    return Boolean(this.known.get(this.pathOf(template)));
  }

  // Other files have come: those that were not there may be among them.
  retry() {
    for (const [path, template] of this.known) if (!template) this.known.delete(path);
  }

  // Reads the templates of a map that are not known yet, and says whether some have come.
  async take(map) {
    const { place } = this.editor;
    if (place !== this.place) this.known.clear();
    this.place = place;
    const named = new Set((map?.layers ?? []).flatMap(({ data }) => data.objects ?? []).map(({ template }) => template).filter(each => each));
    const left = [...named].map(each => this.pathOf(each)).filter(path => !this.known.has(path));
    const read = await Promise.all(left.map(path => place.bytes(path).catch(() => null)));
    if (place !== this.place) return false;
    const found = left.map((path, at) => [path, read[at] && readTemplate(path, read[at])]);
    for (const [path, template] of found) this.known.set(path, template);
    return found.some(([, template]) => template);
  }
}
