// SPDX-License-Identifier: MIT OR Apache-2.0
// Of which kind the file of a map is: XML, as in `.tmx`, or JSON. The bytes of a file tell it; of a new one, its name does.
import * as words from "./words.js";

// The numbers that the library has for them.
const NUMBERS = new Map([["json", 0], ["tmx", 1]]);
const BLANKS = new Set([9, 10, 12, 13, 32]);
const MARK = [0xef, 0xbb, 0xbf];
const LESS_THAN = 0x3c;

/** The kind of a file with these bytes. */
export function kindOf(bytes) {
  let at = MARK.every((byte, place) => bytes[place] === byte) ? MARK.length : 0;
  while (BLANKS.has(bytes[at])) {
    at += 1;
  }
  return bytes[at] === LESS_THAN ? "tmx" : "json";
}

/** The kind of a new file of this name. */
export function kindOfName(name) {
  return /\.tmx$/i.test(name) ? "tmx" : "json";
}

/** A kind that is named; null where none is. Throws RangeError for any other word. */
export function kindNamed(word) {
  return word === null ? null : words.oneOf(word, [...NUMBERS.keys()], "the kind of a file");
}

/** The number that the library has for a kind. */
export function kindNumber(kind) {
  return NUMBERS.get(kind);
}
