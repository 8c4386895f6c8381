// SPDX-License-Identifier: MIT OR Apache-2.0
// What each session line is, by its words: asked before it is done, so that a full journal may bar it; for the journal, which keeps no
// line that only looks; of lines that were kept; and for the log. What a line did, the editor tells.

// The lines that only look.
const LOOKS = new Set(["list", "tile", "show", "status", "undotext", "redotext", "text"]);
// The lines about which documents there are.
const DOCUMENTS = new Set(["new", "open", "close", "discard", "use"]);
// The edits of the active document.
const EDITS = new Set(["stamp", "erase", "fill", "select", "layer", "resize", "extend", "object", "prop", "tileset", "member"]);
// The lines that go along the steps, or end a macro.
const TURNS = new Set(["undo", "redo", "goto", "end"]);

// The lines that an editor for all edits alone reads.
const FOR_ALL_EDITS = /^(?:member|extend|object (?:put|into)|prop (?:put|take)|tileset (?:put|number)|layer (?:into|add (?:group|image))) /;

export const wordOf = line => line.split(" ", 1)[0].replace(/\++$/, "");

export const isLook = line => LOOKS.has(wordOf(line));
export const isTurn = line => TURNS.has(wordOf(line));
export const isEdit = line => EDITS.has(wordOf(line));
export const isAboutDocuments = line => DOCUMENTS.has(wordOf(line));

export const isForAllEdits = line => FOR_ALL_EDITS.test(line);

// Whether a line follows the step before it.
export const isFollowing = line => /^(?:\S+ )?\S+\+(?: |$)/.test(line);

// Whether a line is quiet: it is blank or a comment.
export const isQuiet = line => /^ *$|^#/.test(line);
