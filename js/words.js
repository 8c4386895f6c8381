// SPDX-License-Identifier: MIT OR Apache-2.0
// Checks words before they become a line: what no line can say is told with the caller's own words, and
// nothing is sent.
import { MAX_COORDINATE, MAX_DOCUMENT_NAME, MAX_NUMBER, MAX_TEXT } from "./limits.js";

const encoder = new TextEncoder();
// What stands between the two texts of a macro.
const DIVIDER = " || ";
const DOCUMENT = new RegExp(`^[A-Za-z0-9_][A-Za-z0-9_.-]{0,${MAX_DOCUMENT_NAME - 1}}$`);
const COLOUR = /^#([0-9a-fA-F]{6}|[0-9a-fA-F]{8})$/;
// eslint-disable-next-line no-control-regex
const CONTROL = /[\u0000-\u001f\u007f]/;
const HALF = /\p{Surrogate}/u;
const SHOWN = 60;
// How many ids are listed.
const MOST_LISTED = 12;
/** What a MapObject has its id under, so that it can be the value of a property. */
export const OBJECT = Symbol("the id of an object");

function shown(word) {
  return word.length <= SHOWN ? JSON.stringify(word) : `${JSON.stringify(word.slice(0, SHOWN))}..`;
}

/** A value as a fault quotes it. */
export function quoted(value) {
  return typeof value === "string" ? shown(value) : String(value).slice(0, SHOWN);
}

/** Ids in a message, the first ones where they are many. */
export function listed(ids) {
  const more = ids.length > MOST_LISTED ? ` and ${ids.length - MOST_LISTED} more` : "";
  return ids.slice(0, MOST_LISTED).join(", ") + more;
}

/** Whether a value is an object that is nothing else, as `{ x: 5 }`: of this page, or of another one. */
export function isPlain(value) {
  if (typeof value !== "object" || value === null) {
    return false;
  }
  const prototype = Object.getPrototypeOf(value);
  return prototype === null || (Object.getPrototypeOf(prototype) === null && !Array.isArray(value));
}

/** Whether a value is a text without half of a character: what has a name in a map may have it. */
export function isWhole(word) {
  return typeof word === "string" && !HALF.test(word);
}

/** Whether a value is a number that can be an id. */
export function isId(value) {
  return Number.isInteger(value) && value >= 0 && value <= MAX_NUMBER;
}

/** A text that a line can have. Throws TypeError where it is none, RangeError where no line can say it. */
export function text(word, what) {
  if (typeof word !== "string") {
    throw new TypeError(`${what} is a string: ${quoted(word)}`);
  }
  if (word === "") {
    throw new RangeError(`${what} is empty: give it one character or more`);
  }
  if (CONTROL.test(word)) {
    throw new RangeError(`${what} has a newline, a tab or another control character in it: ${shown(word)}`);
  }
  const size = encoder.encode(wholeText(word, what)).length;
  if (size > MAX_TEXT) {
    throw new RangeError(`${what} has ${size} bytes in UTF-8, and may have ${MAX_TEXT}: ${shown(word)}`);
  }
  return word;
}

/** A text of whole characters. Throws RangeError where it has half of one. */
export function wholeText(word, what) {
  if (HALF.test(word)) {
    throw new RangeError(`${what} has half of a character in it: ${shown(word)}`);
  }
  return word;
}

/** The name of a property, or of what is spelled as one. Throws as `text` does, and RangeError for a space. */
export function key(word, what = "the name of a property") {
  const said = text(word, what);
  if (said.includes(" ")) {
    throw new RangeError(`${what} has a space in it, which it may not have: ${shown(said)}`);
  }
  return said;
}

/** Whether a line can have a text as its rest. */
export function isText(word) {
  return takes(text, word);
}

/** Whether a line can have a text as one of its words. */
export function isKey(word) {
  return takes(key, word);
}

function takes(check, word) {
  try {
    check(word, "");
  } catch (fault) {
    if (fault instanceof RangeError) {
      return false;
    }
    throw fault;
  }
  return true;
}

/**
 * Both texts of a macro, as the line `begin` has them. Throws as `text` does, and RangeError where they
 * would be divided at another place.
 */
export function macro(words, action) {
  const said = text(words, "the text of a macro");
  const isOne = action === null || action === undefined;
  const whole = isOne ? said : said + DIVIDER + text(action, "the action text of a macro");
  if (whole.indexOf(DIVIDER) !== (isOne ? -1 : said.length)) {
    throw new RangeError(
      `the text of a macro has "${DIVIDER}" in it, which divides it from its action text: ${shown(said)}`,
    );
  }
  return whole;
}

/** The name of a document. Throws TypeError where it is no text, RangeError where no line can say it. */
export function document(name) {
  if (typeof name !== "string") {
    throw new TypeError(`the name of a document is a string: ${quoted(name)}`);
  }
  if (!DOCUMENT.test(name)) {
    throw new RangeError(
      `the name of a document is 1 to 64 of A-Z a-z 0-9 _ . -, and begins with neither . nor -: ${shown(name)}`,
    );
  }
  return name;
}

function whole(value, what) {
  if (!Number.isInteger(value)) {
    throw new TypeError(`${what} is a whole number: ${quoted(value)}`);
  }
  return value;
}

/** A coordinate. Throws TypeError where it is no whole number, RangeError where it is out of range. */
export function coordinate(value, what) {
  if (Math.abs(whole(value, what)) > MAX_COORDINATE) {
    throw new RangeError(`${what} is from -1,000,000,000 to 1,000,000,000: ${value}`);
  }
  // -0 is spelled "0".
  return value + 0;
}

/** A number from 0. Throws as `coordinate` does. */
export function number(value, what) {
  if (whole(value, what) < 0 || value > MAX_NUMBER) {
    throw new RangeError(`${what} is from 0 to 4,294,967,295: ${value}`);
  }
  return value + 0;
}

/** A word of a few. Throws RangeError for any other. */
export function oneOf(word, words, what) {
  if (!words.includes(word)) {
    throw new RangeError(`${what} is one of ${words.join(", ")}: ${quoted(word)}`);
  }
  return word;
}

/**
 * The options of a call, each as it is usual where it is not given. Throws TypeError for one of another name, and where they are no
 * plain object.
 */
export function options(given, usual) {
  if (given === undefined) {
    return usual;
  }
  const names = Object.keys(usual);
  if (!isPlain(given)) {
    throw new TypeError(`options stand in braces, as { ${names[0]}: .. }: ${quoted(given)}`);
  }
  const other = Object.keys(given).find((name) => !names.includes(name));
  if (other !== undefined) {
    throw new TypeError(`an option here is one of ${names.join(", ")}: ${quoted(other)}`);
  }
  return Object.fromEntries(names.map((name) => [name, given[name] === undefined ? usual[name] : given[name]]));
}

// ---- properties

/** The types of properties that are set: those that the line `prop set` says, and the others. */
const PLAIN_TYPES = ["string", "file", "int", "bool", "color", "object"];
export const TYPES = [...PLAIN_TYPES, "float", "class", "list"];
// Whether a type takes a value.
const TAKES = {
  string: (value) => typeof value === "string",
  file: (value) => typeof value === "string",
  color: (value) => typeof value === "string",
  int: (value) => Number.isInteger(value),
  bool: (value) => typeof value === "boolean",
  float: (value) => Number.isFinite(value),
  class: (value) => isPlain(value),
  list: (value) => Array.isArray(value),
};

/**
 * The value of a property of a type, as a file has it. Throws TypeError where the type takes no such value,
 * RangeError where it is no id or no colour.
 */
export function setting(name, value, kind) {
  const what = `the property ${shown(name)}`;
  if (kind === "object") {
    return number(value?.[OBJECT] ?? value, what);
  }
  if (!TAKES[kind](value)) {
    throw new TypeError(`${what} has the type ${kind}, and takes no such value: ${quoted(value)}`);
  }
  if (kind === "color" && value !== "" && !COLOUR.test(value)) {
    throw new RangeError(`${what} is a color: # and 6 or 8 digits of 0-9a-f, or nothing, and not ${shown(value)}`);
  }
  return value;
}

/** The type and the value of a property, as the line `prop set` has them; null where that can't say them. */
export function plainSetting(value, kind) {
  if (kind === "int") {
    return Math.abs(value) <= MAX_COORDINATE ? `int ${value + 0}` : null;
  }
  if (kind === "bool" || kind === "object") {
    return `${kind} ${value}`;
  }
  const isSaid = PLAIN_TYPES.includes(kind) && isText(value) && (kind !== "color" || value === value.toLowerCase());
  return isSaid ? `${kind} ${value}` : null;
}

// The types of first values, the first that takes one.
const FIRST_TYPES = ["string", "bool", "int", "float", "list", "class"];

/** The type of a property that is set for the first time. Throws TypeError where there is none for the value. */
export function typeOf(name, value) {
  if (value?.[OBJECT] !== undefined) {
    return "object";
  }
  const kind = FIRST_TYPES.find((each) => TAKES[each](value));
  if (kind === undefined) {
    const kinds = "a string, a boolean, a finite number, a MapObject, a plain object or an array";
    throw new TypeError(`the property ${shown(name)} is ${kinds}: ${quoted(value)}`);
  }
  return kind;
}
