// SPDX-License-Identifier: MIT OR Apache-2.0
// What the library sets aside of a map, in its tree.

// The name under which it stands, in the map, in layers and objects.
const RESERVED = "roskevad";
/** The name under which a layer notes how it was packed. */
export const PACKED = "roskevad_packed";
// The name under which it notes what JSON can't say of a map in XML.
const XML_NOTE = "roskevad_tmx";
// The names of an object's place, with what it was moved by, and of its size.
const MOVED = [["x", "movedx"], ["y", "movedy"], ["width", null], ["height", null]];
const HALF = 2 ** 32;
// What a text has in it where anything stands under one of these names.
const FRONT = `"${RESERVED}`;
const FRONT_BYTES = new TextEncoder().encode(FRONT);

/** Whether anything stands under the reserved names in the text of a map, or of a thing of it; of bytes too. */
export function hasAside(text) {
  return typeof text === "string" ? text.includes(FRONT) : has(text, FRONT_BYTES);
}

/** Whether the text of an object notes a fraction of one of these of its coordinates. */
export function notesOne(text, names) {
  const notes = hasAside(text) ? JSON.parse(text)[RESERVED] ?? {} : {};
  return names.some((name) => Object.hasOwn(notes, name));
}

/**
 * The tree of a map, or of a thing of it, in which fractions are numbers again, and no note is left, but of XML those
 * that are to be kept. The tree itself is changed. `note` is that of the map.
 */
export function restored(value, note, keepsXmlNotes = false) {
  if (Array.isArray(value)) {
    for (let at = 0; at < value.length; at++) {
      if (typeof value[at] === "object") {
        value[at] = restored(value[at], note, keepsXmlNotes);
      }
    }
    return value;
  }
  return value !== null && typeof value === "object" ? restoredMembers(value, note, keepsXmlNotes) : value;
}

/** Layers of which nothing notes any more how they were packed, nor those in them. */
export function withoutPacking(layers) {
  for (const layer of Array.isArray(layers) ? layers : []) {
    if (layer !== null && typeof layer === "object") {
      delete layer[PACKED];
      withoutPacking(layer.layers);
    }
  }
  return layers;
}

/** A property of a class with what XML has noted of an old one: of each member whose value is of the same type still. */
export function withKeptNote(property, old) {
  const areClasses = isObject(property.value) && isObject(old.value);
  return withNote(property, areClasses ? keptNote(property.value, old.value, old[XML_NOTE] ?? {}) : {});
}

function withNote({ [XML_NOTE]: _, ...members }, note) {
  return Object.keys(note).length === 0 ? members : { ...members, [XML_NOTE]: note };
}

function keptNote(value, was, note) {
  const kept = {};
  for (const [name, own] of Object.entries(note)) {
    if (Object.hasOwn(value, name) && Object.hasOwn(was, name) && fits(value[name], was[name], own.type)) {
      put(kept, name, isObject(value[name]) ? withNote(own, keptNote(value[name], was[name], own[XML_NOTE] ?? {})) : own);
    }
  }
  return kept;
}

// Whether a new value is of the type that is noted.
function fits(value, was, noted) {
  const [one, other] = [shownType(value), shownType(was)];
  return one === other || noted === "float" && [one, other].every((type) => ["int", "float"].includes(type));
}

function shownType(value) {
  return typeof value === "number" ? Number.isInteger(value) ? "int" : "float" : isObject(value) ? "class" : typeof value;
}

function isObject(value) {
  return value !== null && typeof value === "object" && !Array.isArray(value);
}

/** The layers in drawing order, those that stand in a group behind it. */
export function* drawn(layers) {
  for (const layer of layers) {
    yield layer;
    // A layer of another kind may have any member of that name.
    yield* drawn(layer.type === "group" ? layer.layers : []);
  }
}

/**
 * What the tree of a map, or its head, says of how an infinite map was made finite; nothing of any other map.
 * `extend` changes it.
 */
export function noteOf(tree) {
  return tree[RESERVED]?.infinite ?? {};
}

/** The column and the row of an infinite map where the corner of the finite one lies; [0, 0] of any other. */
export function originOf({ x = 0, y = 0 }) {
  return [x, y];
}

function restoredMembers(members, note, keepsXmlNotes) {
  for (const [name, value] of Object.entries(members)) {
    const exact = restored(value, note, keepsXmlNotes);
    if (exact !== value) {
      put(members, name, exact);
    }
  }
  if (!keepsXmlNotes) {
    delete members[XML_NOTE];
  }
  const notes = members[RESERVED] ?? null;
  if (Array.isArray(notes)) {
    return numberOf(notes, members);
  }
  if (notes !== null && typeof notes === "object") {
    delete members[RESERVED];
    putCoordinates(members, notes, note);
  }
  return members;
}

// The number that an object of nothing but the halves of its bits stands for, else the object.
function numberOf(halves, members) {
  const isStandIn = Object.keys(members).length === 1 && halves.length >= 2
    && halves.slice(0, 2).every((half) => Number.isInteger(half) && half >= 0 && half < HALF);
  if (!isStandIn) {
    return members;
  }
  const view = new DataView(new ArrayBuffer(8));
  view.setUint32(0, halves[0]);
  view.setUint32(4, halves[1]);
  const number = view.getFloat64(0);
  return Number.isFinite(number) ? number : members;
}

// The coordinates of an object that are noted and that no edit has changed. One of an infinite map was moved.
function putCoordinates(members, notes, note) {
  for (const [name, moved] of MOVED) {
    const by = note[moved] ?? 0;
    if (typeof notes[name] === "number" && Math.floor(notes[name]) === members[name] + by) {
      put(members, name, notes[name] - by);
    }
  }
}

// Whether some bytes stand among others.
function has(bytes, wanted) {
  for (let at = bytes.indexOf(wanted[0]); at >= 0; at = bytes.indexOf(wanted[0], at + 1)) {
    if (wanted.every((byte, place) => bytes[at + place] === byte)) {
      return true;
    }
  }
  return false;
}

// A member may have any name, as `__proto__`.
function put(members, name, value) {
  Object.defineProperty(members, name, { value, writable: true, enumerable: true, configurable: true });
}
