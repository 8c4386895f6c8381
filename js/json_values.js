// SPDX-License-Identifier: MIT OR Apache-2.0
// Values as the JSON that a line has. What JSON has not is told with the caller's own words, and nothing is sent.
import { isPlain, quoted, wholeText } from "./words.js";

// What nests deeper is refused by every editor, or nests without an end.
const DEEPEST = 1000;

/**
 * A value as JSON in one line. Throws TypeError for what JSON has not, RangeError for half of a character and for what nests
 * without an end.
 */
export function said(value, what, depth = 0) {
  if (depth > DEEPEST) {
    throw new RangeError(`${what} nests too deep, or has itself in it`);
  }
  const inner = (each) => said(each, what, depth + 1);
  if (value === null || typeof value === "boolean") {
    return String(value);
  }
  if (typeof value === "string") {
    return JSON.stringify(wholeText(value, what));
  }
  if (Number.isFinite(value)) {
    return Number.isInteger(value) ? String(BigInt(value)) : String(value);
  }
  if (Array.isArray(value)) {
    return `[${Array.from(value, inner).join(",")}]`;
  }
  if (isPlain(value)) {
    return `{${Object.entries(value).map(([name, each]) => `${inner(name)}:${inner(each)}`).join(",")}}`;
  }
  const shown = typeof value === "number" ? value : typeof value;
  throw new TypeError(`${what} is null, a boolean, a finite number, a string, or an array or a plain object of such: ${shown}`);
}

/** The members of a thing as JSON in one line. Throws as `said` does, and TypeError where they are none. */
export function membersSaid(members, what) {
  if (!isPlain(members)) {
    throw new TypeError(`${what} are a plain object: ${quoted(typeof members)}`);
  }
  return said(members, what);
}

/** A text, also an empty one. Throws TypeError where it is none. */
export function text(value, what) {
  if (typeof value !== "string") {
    throw new TypeError(`${what} is a string: ${quoted(value)}`);
  }
  return value;
}

/** A number, perhaps with a fraction. Throws TypeError where it is none. */
export function number(value, what) {
  if (!Number.isFinite(value)) {
    throw new TypeError(`${what} is a finite number: ${quoted(value)}`);
  }
  return value;
}
