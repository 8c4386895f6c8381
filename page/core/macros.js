// SPDX-License-Identifier: MIT OR Apache-2.0
// Macros after the fact: edits of an open one are taken back one by one, and steps that are done become one.
//
// No line does either. An open macro is ended, undone, and begun anew with its lines but the last ones; steps are undone, and their lines are
// done once more between `begin` and `end`. The page has the lines of all steps but of those before its journal began anew.
import { isFollowing, wordOf } from "./line_kinds.js";

// Where this window keeps what was taken back of an open macro, also behind a reload.
const KEPT = "roskevad-taken-back";
const NONE = { journal: null, life: null, count: 0, edits: [] };

function kept() {
  try {
    return JSON.parse(sessionStorage.getItem(KEPT)) ?? NONE;
  } catch {
    return NONE;
  }
}

const isBeginning = line => wordOf(line) === "begin";
const isEnding = line => wordOf(line) === "end";

// Where the last edit of an open macro begins among its lines: a stroke, a macro in it, or, where nothing else is left, a `begin`.
function lastEditIn(lines) {
  let at = lines.length - 1;
  if (isBeginning(lines[at])) return at;
  if (isEnding(lines[at])) {
    for (let open = 1; open > 0;) open += isEnding(lines[--at]) ? 1 : isBeginning(lines[at]) ? -1 : 0;
    return at;
  }
  while (isFollowing(lines[at]) && at > 1 && !isBeginning(lines[at - 1]) && !isEnding(lines[at - 1])) at--;
  return at;
}

export class Macros {
  constructor(bench) {
    Object.assign(this, { bench, editor: bench.editor });
    // What was taken back of an open macro, the last first, by the document's life in the journal: good for as long as that has so many lines.
    this.taken = kept();
  }

  // The edits that may be done again, each as its lines.
  get again() {
    const { openDocuments: { document }, journal } = this.editor;
    const { life, count, edits } = this.taken;
    return document && document.life === life && document.lines.length === count && journal.id === this.taken.journal ? edits : [];
  }

  keep(edits) {
    const { openDocuments: { document }, journal } = this.editor;
    this.taken = { journal: journal.id, life: document.life, count: document.lines.length, edits };
    try {
      sessionStorage.setItem(KEPT, JSON.stringify(this.taken));
    } catch {
      // Where the browser has no room for it a reload forgets it.
      sessionStorage.removeItem(KEPT);
    }
  }

  // ---- undo and redo, also in an open macro
  undo() {
    return this.editor.stand().depth ? this.takeBack() : this.bench.act(["undo"]);
  }

  redo() {
    const [edit, ...edits] = this.again;
    if (!edit) return this.editor.stand().depth ? this.bench.say("Nothing of this macro is undone.") ?? { isAccepted: false } : this.bench.act(["redo"]);
    const done = this.bench.sayRefusal(this.editor.doLines(edit));
    if (done.isAccepted) this.keep(edits);
    return done;
  }

  // Takes the last edit of the open macro back; of one without edits, the macro.
  takeBack() {
    const { editor, bench, again } = this;
    const lines = editor.openDocuments.document.steps.open;
    if (!lines) return bench.say("What is in this macro is not known here: end it first.") ?? { isAccepted: false };
    const at = lastEditIn(lines);
    const [kept, edit, back] = [lines.slice(0, at), lines.slice(at), this.linesBack()];
    const done = editor.doLines([...back, ...kept]);
    if (!done.isAccepted && !done.barred) editor.doLines([...this.linesBack(), ...lines]);
    else if (done.isAccepted) this.keep([edit, ...again]);
    return bench.sayRefusal(done);
  }

  // The lines that end all open macros, and undo them.
  linesBack() {
    const { depth } = this.editor.stand();
    return depth ? [...Array(depth).fill("end"), "undo"] : [];
  }

  // ---- the last steps as one
  // Why the last steps, so many, cannot become one; "" where they can.
  whyNot(count) {
    const { editor } = this;
    const { document } = editor.openDocuments;
    if (!document) return "Open a map first";
    const { index, depth } = editor.stand();
    if (depth) return "End the macro first";
    if (!index) return "Nothing is done yet";
    if (count > index) return index === 1 ? "There is 1 step" : `There are ${index} steps`;
    const clean = editor.editor.cleanIndex();
    if (clean !== null && clean > index - count && clean <= index) return "The map was saved among these steps, and that mark would go";
    return document.steps.linesOf(index - count, index) ? "" : "What these steps did is not known any more";
  }

  // Makes one step of the last ones, with a name. Where a line is refused all is as it was.
  group(count, name) {
    const { editor } = this;
    const { index } = editor.stand();
    const lines = editor.openDocuments.document.steps.linesOf(index - count, index).flat();
    const done = editor.doLines([`goto ${index - count}`, `begin ${name}`, ...lines, "end"]);
    if (!done.isAccepted) {
      const isBegun = editor.stand().depth > 0;
      editor.doLines(isBegun ? [...this.linesBack(), ...lines] : [`goto ${index}`]);
    }
    return this.bench.sayRefusal(done);
  }
}
