// SPDX-License-Identifier: MIT OR Apache-2.0
// What is said of the journals that windows have left, and which of them can be read.
import { lastOf } from "../files/names.js";

const DAY = 24 * 60 * 60 * 1000;

const isText = value => typeof value === "string";
const isCount = value => Number.isInteger(value) && value >= 0;
const isDocumentSummary = each => isText(each?.name) && (each.path === null || isText(each.path)) && isCount(each.steps) && isCount(each.lines);
const IS_RIGHT = {
  id: isText,
  version: isText,
  limit: isCount,
  count: isCount,
  changed: isCount,
  documents: documents => Array.isArray(documents) && documents.every(isDocumentSummary),
  source: source => isText(source?.kind),
};

// Whether a row of the database has all that a journal's has. Any page of the same origin may write there.
export const isWhole = row => Object.entries(IS_RIGHT).every(([name, isRight]) => isRight(row?.[name]));

// Whether a journal has nothing but maps that were opened, and no other line. It is for its own window alone, which may come back, and is
// not offered.
export const isUntouched = row => row.documents.every(({ path, lines }) => path !== null && lines === 1);
export const isOld = row => isUntouched(row) && Date.now() - row.changed > DAY;

const titleOf = ({ name, path }) => (path ? lastOf(path) : name);
const stepsOf = count => `${count} ${count === 1 ? "step" : "steps"}`;

// How far a document is kept of a journal that was broken off.
export const farOf = ({ kept, steps }) => (kept === null ? "not kept" : `${kept} of ${steps} steps kept`);

function nameOf(document, broken) {
  const far = broken.find(each => each.name === document.name);
  return `${titleOf(document)} (${far ? farOf(far) : stepsOf(document.steps)}${document.isClean ? "" : ", not saved"})`;
}

// The documents of a journal in words; `broken` is what is known of those of which later steps are missing: [{ name, path, kept, steps }].
export function namesOf(row, broken = []) {
  const others = broken.filter(({ name }) => row.documents.every(each => each.name !== name));
  return [...row.documents.map(each => nameOf(each, broken)), ...others.map(each => `${titleOf(each)} (${farOf(each)})`)].join(", ");
}

// The same alone of what was broken off.
export const brokenNames = broken => broken.map(each => `${titleOf(each)} (${farOf(each)})`).join(", ");

// What a notice says of a journal first.
export const leftOf = (row, broken) => `Left at ${new Date(row.changed).toLocaleString()}: ${namesOf(row, broken)}`;
