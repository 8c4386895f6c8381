// SPDX-License-Identifier: MIT OR Apache-2.0
// The steps of one document: their rows, which the editor tells; of some a word for the way in which it was made, which no step has; and the
// lines that made them.
//
// All stand at the number of their step: how many were made before it and have not made room for others. `first` is that of the first one
// that is there, since with an undo limit the oldest ones are dropped.

import { wordOf } from "./line_kinds.js";

const ADDED = new Set(["added", "added and dropped"]);

function cut(all, end) {
  if (all.length > end) all.length = end;
}

export class DocumentSteps {
  constructor() {
    Object.assign(this, { first: 0, rows: [], ways: [], lines: [] });
    // The lines of the macros that are open, from the outermost `begin` on; null where none is, or they are not known.
    this.open = null;
  }

  // Takes what a line did, and the way in which it did that, or null.
  take(line, told, way) {
    this.takeLine(line, told);
    this.takeWay(told, way);
    for (let left = told.dropped; left > 0; left--) this.drop();
  }

  // Takes a line where its step is.
  takeLine(line, { became, before, index, count, depth }) {
    const word = wordOf(line);
    cut(this.lines, this.first + count - (depth > 0 ? 1 : 0));
    if (depth === 1 && word === "begin") this.open = [];
    if (depth > 0 || word === "end") {
      this.open?.push(line);
      if (depth > 0) return;
      if (this.open) this.lines[this.first + index - 1] = this.open;
      this.open = null;
    } else if (ADDED.has(became)) this.lines[this.first + before] = [line];
    else if (became === "merged") this.lines[this.first + index - 1]?.push(line);
  }

  // The lines of the steps from a place on up to another, a list for each; null where some are not known.
  linesOf(start, stop) {
    const found = this.lines.slice(this.first + start, this.first + stop);
    return found.length === stop - start && !found.includes(undefined) ? found : null;
  }

  takeWay({ became, before, index, count, depth }, way) {
    const isStep = became !== "nothing" && became !== "turned";
    // The number from which on steps are others. An open macro stands last, and has more with each line.
    const end = this.first + (isStep ? Math.min(before, index) : count - (depth > 0 ? 1 : 0));
    const isMerged = became === "merged" && depth === 0;
    cut(this.rows, isMerged ? end - 1 : end);
    cut(this.ways, end);
    if (ADDED.has(became) && depth === 0 && way !== null) this.ways[end] = way;
    // What was made in two ways was made in none.
    if (isMerged && this.ways[end - 1] !== way) delete this.ways[end - 1];
  }

  // Lets go of the first step.
  drop() {
    delete this.rows[this.first];
    delete this.ways[this.first];
    delete this.lines[this.first];
    this.first++;
  }

  // The steps from a place on up to another: { text, isMacro, subject, way }. The editor, in which their document is active, is asked for
  // those that are not known.
  from(start, stop, editor) {
    const [from, to] = [this.first + start, this.first + stop];
    for (let at = from; at < to; at++) if (!this.rows[at]) this.read(at, to, editor);
    return this.rows.slice(from, to);
  }

  // Reads the steps from a number on, up to one that is known or to an end.
  read(from, to, editor) {
    let end = from + 1;
    while (end < to && !this.rows[end]) end++;
    for (const { at, text, isMacro, subject } of editor.steps(from - this.first, end - this.first)) {
      const number = this.first + at;
      this.rows[number] = { text, isMacro, subject, way: this.ways[number] ?? null };
    }
  }
}
