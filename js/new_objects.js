// SPDX-License-Identifier: MIT OR Apache-2.0
// Objects that are added: what a file has of each, by the words of the caller, and the line that adds it.
import * as json from "./json_values.js";
import * as words from "./words.js";

const MEMBERS = "the members of an object";
// What a file calls otherwise.
const MEMBERS_OF = { tile: "gid" };

/** Whether a value is a number that is not whole. */
export const hasFraction = (value) => Number.isFinite(value) && !Number.isInteger(value);
/** A coordinate. Throws TypeError where it is no number, RangeError where it is out of range. */
export const pixels = (value, what) => (hasFraction(value) ? value : words.coordinate(json.number(value, what), what));
/** The same of a width or a height, from 0. */
export const length = (value, what) => (hasFraction(value) ? value : words.number(json.number(value, what), what));

/** A place and a size in pixels, as a file has them. Throws TypeError where one is no number, RangeError where it is out of range. */
export function placeOf(x, y, width, height) {
  return { x: pixels(x, "x"), y: pixels(y, "y"), width: length(width, "a width"), height: length(height, "a height") };
}

/** The line that adds an object at a place: `object add` where that can say it. */
export function lineOf(layer, name, place, looks) {
  const said = json.text(name, "the name of an object");
  const isPlain = Object.keys(looks).length === 0 && words.isText(said) && !Object.values(place).some(hasFraction);
  if (isPlain) {
    return `object add ${layer} ${Object.values(place).join(" ")} ${said}`;
  }
  return putLine(layer, textOf({ name: said, type: "", ...place, rotation: 0, visible: true, ...looks }));
}

/** An object as JSON. Throws TypeError, RangeError. */
export function textOf(members) {
  return json.membersSaid(members, MEMBERS);
}

/** The line that adds an object as a file has it. */
export function putLine(layer, text) {
  return `object put ${layer} ${text}`;
}

/** What a file has of an object that is no rectangle. Throws TypeError; RangeError where it would be two things at once. */
export function looksOf({ point, ellipse, polygon, polyline, text, tile }) {
  const value = tile === null ? 0 : words.number(tile?.value ?? tile, "the tile of an object");
  const all = {
    point: point ? true : null,
    ellipse: ellipse ? true : null,
    polygon: polygon === null ? null : corners(polygon),
    polyline: polyline === null ? null : corners(polyline),
    text: text === null || words.isPlain(text) ? text : { text: json.text(text, "the text of an object") },
    tile: value === 0 ? null : value,
  };
  const looks = Object.entries(all).filter(([, each]) => each !== null);
  if (looks.length > 1) {
    const both = looks.map(([name]) => name).join(" and ");
    throw new RangeError(`an object is one of ${Object.keys(all).join(", ")}, and this one would be ${both}`);
  }
  return Object.fromEntries(looks.map(([name, each]) => [MEMBERS_OF[name] ?? name, each]));
}

// Corners as a file has them.
function corners(all) {
  if (typeof all?.[Symbol.iterator] !== "function" || typeof all === "string") {
    throw new TypeError(`corners of an object are pairs of numbers, from its place: ${words.quoted(all)}`);
  }
  return Array.from(all, (each) => {
    const [x, y, ...more] = words.isPlain(each) ? [each.x, each.y] : pairOf(each);
    if (more.length > 0) {
      throw new TypeError(`a corner of an object is a pair of numbers, and this one has ${more.length + 2}`);
    }
    return { x: json.number(x, "x of a corner"), y: json.number(y, "y of a corner") };
  });
}

/** Members of an object as a file has them: corners may be pairs of numbers, and a text a text. All else is as it is. */
export function inAFile(members) {
  return Object.fromEntries(Object.entries(members).map(([name, value]) => [name, IN_A_FILE[name]?.(value) ?? value]));
}

const isPair = (each) => Array.isArray(each) && each.length === 2;
const pairsAsCorners = (value) => (Array.isArray(value) && value.every(isPair) ? corners(value) : value);
const IN_A_FILE = {
  __proto__: null,
  polygon: pairsAsCorners,
  polyline: pairsAsCorners,
  text: (value) => (typeof value === "string" ? { text: value } : value),
};

function pairOf(corner) {
  if (typeof corner?.[Symbol.iterator] !== "function") {
    throw new TypeError(`a corner of an object is a pair of numbers: ${words.quoted(corner)}`);
  }
  return corner;
}

/**
 * What a file has of an object's class, its turn, whether it is shown and its properties, as far as that is not the usual. Throws
 * TypeError, RangeError.
 */
export function given({ className, rotation, visible, properties }) {
  if (properties !== null && !words.isPlain(properties)) {
    throw new TypeError(`the properties of an object are a plain object: ${words.quoted(properties)}`);
  }
  const turn = json.number(rotation, "the rotation of an object");
  const listed = Object.entries(properties ?? {}).map(([name, value]) => propertyOf(name, value));
  return {
    ...(json.text(className, "the class of an object") === "" ? {} : { type: className }),
    ...(turn === 0 ? {} : { rotation: turn }),
    ...(visible ? {} : { visible: false }),
    ...(listed.length === 0 ? {} : { properties: listed }),
  };
}

// A property as a file has it, of the value's own type.
function propertyOf(name, value) {
  const type = words.typeOf(name, value);
  return { name, type, value: words.setting(name, value, type) };
}
