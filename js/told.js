// SPDX-License-Identifier: MIT OR Apache-2.0
// What a line did, and what steps are about, as the library tells it.

/** The bytes of what the library tells of a line, and of a row of steps. */
export const TOLD_BYTES = 96;
export const STEP_BYTES = 36;
/** Where numbers of 32 bits stand in it: six of 64 bits are before them, which are below 2^32. */
export const REFUSAL = 12;
export const DIFFERS = 13;
export const BECAME = 14;
const [BEFORE, INDEX, COUNT, DEPTH, DROPPED, IS_CLEAN] = [0, 2, 4, 6, 8, 10];
const [SUBJECT, CELLS_AT, WORD] = [15, 17, 22];
/** What differs is a sum of these. */
export const DOCUMENTS = 1;
const OUTLINE = 2;
const SELECTION = 4;
const CELLS = 8;
const ALL_CELLS = 16;
/** What became of an edit, by its number. */
export const ADDED = 1;
export const ADDED_AND_DROPPED = 2;
export const GONE = 4;
const BECAME_WORDS = ["nothing", "added", "added and dropped", "merged", "gone", "turned"];
const KINDS = [null, "map", "layer", "object", "tileset"];

// What an edit is about, whose kind and id stand at a place; null where it is about several things, or the selection.
function subjectOf(numbers, at) {
  return numbers[at] === 0 ? null : Object.freeze({ kind: KINDS[numbers[at]], id: numbers[at + 1] });
}

// The cells that may differ: none, any, or a rectangle of a layer, which stands at a place and whose corner has signs.
function cellsOf(differs, numbers, at) {
  if (differs & ALL_CELLS) {
    return "all";
  }
  if (!(differs & CELLS)) {
    return null;
  }
  const [x, y] = [numbers[at + 1] | 0, numbers[at + 2] | 0];
  return Object.freeze({ layer: numbers[at], x, y, width: numbers[at + 3], height: numbers[at + 4] });
}

/** How a document stands behind a line, as one text. */
export function standingOf(numbers) {
  return `${numbers[INDEX]} ${numbers[COUNT]} ${numbers[DEPTH]} ${numbers[IS_CLEAN]}`;
}

/** What the numbers tell that the library gives of a line. */
export function toldOf(numbers) {
  const differs = numbers[DIFFERS];
  return Object.freeze({
    documents: (differs & DOCUMENTS) !== 0,
    outline: (differs & OUTLINE) !== 0,
    selection: (differs & SELECTION) !== 0,
    cells: cellsOf(differs, numbers, CELLS_AT),
    became: BECAME_WORDS[numbers[BECAME]],
    subject: subjectOf(numbers, SUBJECT),
    dropped: numbers[DROPPED],
    before: numbers[BEFORE],
    index: numbers[INDEX],
    count: numbers[COUNT],
    depth: numbers[DEPTH],
    isClean: numbers[IS_CLEAN] === 1,
    refusal: numbers[REFUSAL] === 0 ? null : numbers[REFUSAL],
    word: numbers[WORD] === 0 ? null : numbers[WORD],
  });
}

/** The row of a step: its place, its text, and what the numbers tell that the library gives of it. */
export function stepOf(at, text, numbers) {
  const [isMacro, differs] = numbers;
  return Object.freeze({
    at,
    text,
    isMacro: isMacro === 1,
    subject: subjectOf(numbers, 2),
    outline: (differs & OUTLINE) !== 0,
    selection: (differs & SELECTION) !== 0,
    cells: cellsOf(differs, numbers, 4),
  });
}
