// SPDX-License-Identifier: MIT OR Apache-2.0
// What may stand in a field, or at a word of a line. Each kind says what is wanted, what is wrong with a text, and how a line spells it.
import { MAX_COORDINATE, MAX_DOCUMENT_NAME, MAX_FILE_NAME, MAX_NUMBER, MAX_PIXELS, MAX_SIDE, MAX_TEXT, MAX_TILE_SIDE } from "../../js/limits.js";
import { isWhole } from "../../js/words.js";
import { LONGEST_TEXT } from "../files/members.js";

// The largest int of Tiled, and the largest float whose neighbours are a whole number apart at most.
const LARGEST_INT = 2_147_483_647;
const LARGEST_FLOAT = Number.MAX_SAFE_INTEGER;

const encoder = new TextEncoder();
// eslint-disable-next-line no-control-regex
const CONTROL = /[\u0000-\u001f\u007f]/;

const grouped = number => number.toLocaleString("en-US");

// What is wrong with a text that may be empty; "" where nothing is.
function labelFault(text) {
  if (CONTROL.test(text)) return "one line, without tabs";
  if (!isWhole(text)) return "whole characters: this has half of one";
  const size = encoder.encode(text).length;
  if (size <= MAX_TEXT) return "";
  return `at most ${MAX_TEXT} letters; this has ${grouped(size)}${size > text.length ? ", as one that is none of a to z counts 2 to 4" : ""}`;
}

// The same of a text of a line.
const textFault = text => (text === "" ? "one letter at least" : labelFault(text));

// The same of a text of a property, which may have several lines, and of one that has one line. How long it may be, its line tells.
const linesFault = text => (isWhole(text) ? "" : "whole characters: this has half of one");

const lineFault = text => (CONTROL.test(text) ? "one line, without tabs" : linesFault(text));

// The same of a text that is drawn, which may have several lines.
function wordsFault(text) {
  if (!isWhole(text)) return "whole characters: this has half of one";
  return text.length > LONGEST_TEXT ? `at most ${grouped(LONGEST_TEXT)} letters; this has ${grouped(text.length)}` : "";
}

// A whole number as a line spells it: without zeros in front, and without a plus sign.
function spelledWhole(text) {
  const found = /^\s*([+-]?)0*(\d+)\s*$/.exec(text);
  if (!found) return text;
  return found[1] === "-" && found[2] !== "0" ? `-${found[2]}` : found[2];
}

export function wholeKind(least, most) {
  const wanted = `a whole number from ${grouped(least)} to ${grouped(most)}`;
  const fault = text => {
    if (!/^-?\d+$/.test(text)) return "a whole number";
    return Number(text) >= least && Number(text) <= most ? "" : wanted;
  };
  return { wanted, fault, spelled: spelledWhole };
}

const NUMBER = /^[+-]?(\d+\.?\d*|\.\d+)(e[+-]?\d+)?$/i;

// A number as JSON spells it: with a point, also where it was typed with a comma.
function spelledNumber(text) {
  const plain = text.trim().replace(",", ".");
  return NUMBER.test(plain) ? String(Number(plain)) : text;
}

// A number, which may have a fraction. `step` is how far an arrow key goes.
export function numberKind(least, most, step) {
  const wanted = `a number from ${grouped(least)} to ${grouped(most)}`;
  const fault = text => {
    if (!NUMBER.test(text)) return "a number";
    return Number(text) >= least && Number(text) <= most ? "" : wanted;
  };
  return { wanted, fault, spelled: spelledNumber, step };
}

// A value, or nothing.
export const orNothing = kind => ({
  wanted: `${kind.wanted}, or nothing`,
  fault: text => (text === "" ? "" : kind.fault(text)),
  spelled: text => (text.trim() === "" ? "" : kind.spelled(text)),
});

function matched(pattern, wanted, spelled = text => text) {
  return { wanted, fault: text => (pattern.test(text) ? "" : wanted), spelled };
}

// A name of at most so many characters.
function named(most) {
  return matched(new RegExp(`^[A-Za-z0-9_][A-Za-z0-9_.-]{0,${most - 1}}$`), `1 to ${most} letters of a to z, digits, and _ . -; first a letter, a digit or _`);
}

const asIs = text => text;

export const KINDS = {
  text: { wanted: `a text of 1 to ${MAX_TEXT} letters`, fault: textFault, spelled: asIs },
  label: { wanted: `a text of at most ${MAX_TEXT} letters`, fault: labelFault, spelled: asIs },
  words: { wanted: `a text of at most ${LONGEST_TEXT} letters`, fault: wordsFault, spelled: asIs },
  key: { wanted: `a name of 1 to ${MAX_TEXT} letters`, fault: textFault, spelled: asIs },
  lines: { wanted: "a text, which may have several lines", fault: linesFault, spelled: asIs },
  line: { wanted: "a text of one line", fault: lineFault, spelled: asIs },
  macro: { wanted: `a text of 1 to ${MAX_TEXT} letters`, fault: text => (text.includes(" || ") ? "without ' || ' in it" : textFault(text)), spelled: asIs },
  coordinate: wholeKind(-MAX_COORDINATE, MAX_COORDINATE),
  size: wholeKind(0, MAX_PIXELS),
  number: wholeKind(0, MAX_NUMBER),
  side: wholeKind(1, MAX_TILE_SIDE),
  cells: wholeKind(1, MAX_SIDE),
  bool: matched(/^(true|false)$/, "true or false"),
  colour: matched(/^#([0-9a-f]{6}|[0-9a-f]{8})$/, "#rrggbb or #aarrggbb, in digits of 0-9 and a-f", text => text.trim().toLowerCase()),
  path: matched(/^(?!.*\.(tsx|tx|xml)$).*[^/]$/i, "the name of a file: .tmj saves the map in JSON, .tmx in XML"),
  document: named(MAX_DOCUMENT_NAME),
  file: named(MAX_FILE_NAME),
};

// The types of properties, each with the kind of its values: of a class the name that it has in Tiled's project.
export const TYPES = {
  string: KINDS.lines, int: wholeKind(-LARGEST_INT - 1, LARGEST_INT), float: numberKind(-LARGEST_FLOAT, LARGEST_FLOAT, 0.1), bool: KINDS.bool,
  color: orNothing(KINDS.colour), file: KINDS.line, object: KINDS.number, class: KINDS.label,
};
