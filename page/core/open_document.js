// SPDX-License-Identifier: MIT OR Apache-2.0
// One document from its `new` or `open` on until it is closed: its lines, its file, and the saves of it that are under way.
//
// Who waits for something of a document (a save, a question, a reload) holds this, and never its name: of two documents that had one name
// behind one another each has its own life. What comes back for a life that is over changes nothing.
import { DocumentSteps } from "./document_steps.js";
import { wayOf } from "./step_ways.js";

export class OpenDocument {
  // `life` numbers the documents of a journal in the order in which they were opened, and `line` is the first of its lines.
  constructor(name, life, line) {
    Object.assign(this, { name, life, lines: [line] });
    // { path, word, mark }: the file, the word that lines name it by, and which bytes the document knows it by. Null where it has none.
    this.file = null;
    // The bytes that saves have sent to files, and of which it is not known that they have arrived: [{ path, hash }].
    this.sent = [];
    // The saves of it that are under way, each as what it ends with.
    this.saves = new Set();
    this.steps = new DocumentSteps();
  }

  // Takes a line that it was the active document of, and what the hand did by that, or null. `tell` gives what the line did; null where it
  // is about no step.
  take(line, gesture, tell) {
    this.lines.push(line);
    const told = tell();
    if (told) this.steps.take(line, told, wayOf(line, gesture));
  }

  get isWriting() {
    return this.saves.size > 0;
  }

  // Resolves once the saves have ended that are under way now.
  async written() {
    await Promise.all(this.saves);
  }

  // The file under a path, where it is the document's own.
  own(path) {
    return this.file?.path === path ? this.file : null;
  }

  // A save sends bytes to a file.
  send({ path, hash }) {
    this.sent.push({ path, hash });
  }

  // What was sent has arrived: the file is the document's own now.
  arrive({ path, word, mark }) {
    this.file = { path, word, mark };
    this.sent = [];
  }

  // Its file is elsewhere from now on: it has none.
  part() {
    Object.assign(this, { file: null, sent: [] });
  }

  // Whether a save of it may have left these bytes under a path.
  hasSent(path, hash) {
    return this.sent.some(each => each.path === path && each.hash === hash);
  }

  // Whether bytes under a path are those that it was read from, or those that a save of it has left there.
  knows(path, hash) {
    return this.own(path)?.mark?.hash === hash || this.hasSent(path, hash);
  }

  // A map could not be written: its session has a mark where it would write a file.
  unwritten(line) {
    const at = this.lines.lastIndexOf(line);
    if (at >= 0) this.lines[at] = "clean";
  }
}
