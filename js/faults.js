// SPDX-License-Identifier: MIT OR Apache-2.0
// What an editor throws.
import { formsOf } from "./forms.js";
import { REFUSALS } from "./refusals.js";

// The class of all faults of the language: below, `Error` is that of this package.
const { Error: Fault } = globalThis;

/**
 * What a file, or the map in it, is at fault for: a program that handles it can go on with the next map. What is wrong
 * whatever the map is throws RangeError or TypeError instead.
 */
export class Error extends Fault {
  name = "Error";
}

/** The map has nothing with this id or name. `message` says which ids there are. */
export class NotFound extends Error {
  name = "NotFound";
}

/** A property has a type in this map that does not take the value. The option `type` of `properties.set` gives it another one. */
export class OtherType extends Error {
  name = "OtherType";
}

/** A tileset in a map, or its file, does not say which tiles it has, or the file is no tileset. */
export class BadTileset extends Error {
  name = "BadTileset";
}

/**
 * A line was refused, and nothing was done.
 *
 * `code` is the number of the refusal, `words` what it says, and `line` the line. Where the line is of
 * no command, or is not as its command has it, `forms` are the forms to write it in. Where it was one of
 * many lines, `place` is its place among them, from 0, and `replies` are those to the lines before it,
 * which are done. `wordAtFault` says at which word a line is no line, and what is wrong with it. `line` of a call is the call, as `open(data, "town")`, and it has no forms; where the map
 * could not be set aside or unpacked, `why` has the reason in words. Where a map was read and refused,
 * `placeInMap` tells where in its file. Where a file of `report` could not be read, `cause` is what the host threw.
 */
export class Refused extends Error {
  constructor(code, words, line, place = null, replies = [], { isCall = false, why = null, placeInMap = null, wordAtFault = null, cause } = {}) {
    const forms = !isCall && (code === 3 || code === 4) ? formsOf(line) : [];
    const more = [wordAtFault && wordAtFault.text, placeInMap && wordsOfPlace(placeInMap), why].filter((each) => each !== null);
    super([`${code} ${words}: ${line.slice(0, 200)}`, ...more, ...forms].join("\n  "), cause === undefined ? undefined : { cause });
    Object.assign(this, { name: "Refused", code, words, line, forms, place, replies, why, placeInMap, wordAtFault });
  }
}

/** What is thrown where a call is refused, with the words of its number. */
export function refusedCall(code, call, more = {}) {
  return new Refused(code, REFUSALS.get(code), call, null, [], { isCall: true, ...more });
}

/** The place of a fault in words, with its line where that is known. */
export function wordsOfPlace({ path, text, line, column }) {
  return path === null || line === null ? text : `${text} (line ${line}, column ${column})`;
}

/** A callback of a change has called what edits, says a line, or changes which documents are open or active. It may read. */
export class InCallback extends Fault {
  constructor(call) {
    super(`a callback of a change may read, and not edit: ${call.slice(0, 200)}`);
    this.name = "InCallback";
  }
}

/** The editor, or the document, was closed. */
export class Closed extends Fault {
  constructor(what = "the editor") {
    super(`${what} is closed`);
    this.name = "Closed";
  }
}

/**
 * The module's memory has no room for that, and it cannot grow. Nothing was done; but a line that only
 * its reply has no room for is done.
 */
export class NoMemory extends Fault {
  constructor() {
    super("no memory is left");
    this.name = "NoMemory";
  }
}

/**
 * The engine broke a call off, so the module's memory may be half written. Nothing is called in it any
 * more: each later call of each of its editors throws this. `cause` is what the engine threw.
 */
export class Broken extends Fault {
  constructor(cause) {
    super(`the module was broken off: ${cause}`, { cause });
    this.name = "Broken";
  }
}

/** What was given is not the module of this package: it was cut short, or is of another version. */
export class BadModule extends Fault {
  constructor(what, cause) {
    super(`this is not the module of this package: ${what}`, { cause });
    this.name = "BadModule";
  }
}
