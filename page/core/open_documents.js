// SPDX-License-Identifier: MIT OR Apache-2.0
// What no line tells of an editor: which documents are open, in which order, which one is active, and of each its lines and its file. The
// lines about documents are read for that, and those that were kept, for the names of files.
import { isAboutDocuments, wordOf } from "./line_kinds.js";
import { OpenDocument } from "./open_document.js";
import { marksOf } from "./session_marks.js";

export class OpenDocuments {
  constructor() {
    // The name of the active document.
    this.active = null;
    // The open documents by their names, these names in the order of the tabs, and how many documents were opened until now.
    this.byName = new Map();
    this.order = [];
    this.lives = 0;
  }

  // The active document, or null.
  get document() {
    return this.byName.get(this.active) ?? null;
  }

  // The file of the active document, or null.
  get file() {
    return this.document?.file ?? null;
  }

  fileOf(name) {
    return this.byName.get(name)?.file ?? null;
  }

  // The document that has a file; null where none has.
  withFile(path) {
    return [...this.byName.values()].find(each => each.own(path)) ?? null;
  }

  // Whether this life of a document is not over.
  isOpen(document) {
    return this.byName.get(document.name) === document;
  }

  // The document that an entry of a journal is about; null where its life is over.
  found({ document, life }) {
    const found = this.byName.get(document) ?? null;
    return life === undefined || found?.life === life ? found : null;
  }

  // Keeps what an accepted line does that does not only look. `file` is what an `open` has read, `gesture` what the hand did, and `instead`
  // the name of the document in whose place an `open` puts its own. `tell` gives what the editor tells of a line about the active document.
  note({ line, file = null, gesture = null, instead = null }, tell) {
    const [word, name, source] = [wordOf(line), ...line.split(" ").slice(1)];
    if (isAboutDocuments(line)) this.noteDocument(word, name, line, instead);
    else this.document?.take(line, gesture, tell);
    // A journal that has begun anew has maps of no file, too.
    if (file && file.path !== null) this.document.file = { path: file.path, word: source, mark: { hash: file.hash, size: file.size, time: file.time } };
  }

  noteDocument(word, name, line, instead) {
    if (word === "new" || word === "open") this.begin(name, line, instead);
    else if (word !== "use") {
      this.byName.delete(name);
      this.order = this.order.filter(each => each !== name);
      if (name !== this.active) return;
      name = "-";
    }
    this.active = name === "-" ? null : name;
  }

  // A document begins; instead of another one it stands in front of that, which has its file no more.
  begin(name, line, instead) {
    this.lives++;
    this.byName.set(name, new OpenDocument(name, this.lives, line));
    const at = this.order.indexOf(instead);
    this.order.splice(at < 0 ? this.order.length : at, 0, name);
    if (at >= 0) this.byName.get(instead).file = null;
  }

  // From now on no document has a file.
  part() {
    for (const document of this.byName.values()) document.part();
  }

  // The session of the active document, where comments say for which edits it is and name each file that no line can spell.
  session(names) {
    const lines = this.document?.lines ?? [];
    const words = new Set(lines.filter(line => /^(open|save) /.test(line)).map(line => line.slice(line.lastIndexOf(" ") + 1)));
    const named = [...words].filter(word => names.pathOf(word) !== word).map(word => `# ${word} is the file ${names.pathOf(word)}`);
    return [...marksOf(lines), ...named, ...lines].map(line => `${line}\n`).join("");
  }
}
