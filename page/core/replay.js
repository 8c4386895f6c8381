// SPDX-License-Identifier: MIT OR Apache-2.0
// The lines of a journal, done anew in a module and an editor of their own, which then may stand in the place of those of the window.
// Which document a line is about is read from the line: one that is left out is never done.
import { Editor } from "../../js/roskevad.js";
import { isAboutDocuments, wordOf } from "./line_kinds.js";
import { cellsIn } from "./log_words.js";
import { FileNames } from "../files/names.js";
import { OpenDocuments } from "./open_documents.js";
import { MOST_AT_ONCE, SAVED, answerTo, cut, opened, pause } from "./replies.js";
import { Said, thrownWords } from "./thrown_words.js";

const BEGINNINGS = new Set(["new", "open"]);

// A journal that gives other replies than those that it has.
export class Otherwise extends Said {}

// A line of one document has failed, which is named by its life.
export class OfDocument extends Said {
  constructor(life, cause) {
    super(thrownWords(cause), { cause });
    this.life = life;
  }
}

export class Replay {
  // One that is lenient takes other words of a reply, and goes on where a document fails, which stays as it was then: `fault` is what has
  // failed last. `without` has the lives of documents that are left out.
  constructor(module, limit, { isLenient = false, without = new Set() } = {}) {
    Object.assign(this, { module, limit, isLenient, fault: null, editor: new Editor(module, { limit }) });
    // The rows of the log, and the saves that are not known to have arrived: a row and what was sent, by their documents.
    Object.assign(this, { openDocuments: new OpenDocuments(), names: new FileNames(), listed: [], pending: new Map() });
    // The names of open documents that are left out, whether one of them is the active one, and the entries of the others and of these.
    Object.assign(this, { without, aside: new Set(), isAside: false, entries: [], others: [] });
    // The lives of documents that stay as they are.
    this.ended = new Set();
  }

  // Does entries; `onLines` is told now and then how many there were. Throws what ends it, as Damaged and OfDocument.
  async take(entries, onLines = () => {}) {
    let count = 0;
    try {
      for await (const entry of entries) {
        await this.takeEntry(entry);
        count++;
        if (count % MOST_AT_ONCE === 0) await pause(onLines(count));
      }
    } catch (fault) {
      if (!this.isLenient || this.module.isBroken) {
        this.editor.close();
        throw fault;
      }
      this.fault = fault;
    }
  }

  // The saves of which the journal does not say that they have arrived: [{ document, row, sent }].
  get pendingSaves() {
    return [...this.pending].filter(([document]) => this.openDocuments.isOpen(document)).map(([document, save]) => ({ document, ...save }));
  }

  async takeEntry(entry) {
    const isAside = this.leavesOut(entry);
    if (this.without.size) this.divide(entry, isAside);
    if (isAside) return;
    if (entry.isElsewhere) this.openDocuments.lives++;
    else if (entry.isParted) this.openDocuments.part();
    else if (entry.sent || entry.written) this.takeFile(entry);
    else await this.takeAccepted(entry);
  }

  // ---- documents that are left out
  // Whether an entry is about a document that is left out.
  leavesOut({ line, sent, written }) {
    if (line === undefined) return this.without.has((sent ?? written)?.life);
    const [word, name] = [wordOf(line), line.split(" ")[1]];
    if (BEGINNINGS.has(word)) {
      this.isAside = this.without.has(this.openDocuments.lives + 1);
      if (!this.isAside) return false;
      this.openDocuments.lives++;
      this.aside.add(name);
      return true;
    }
    if (!isAboutDocuments(line)) return this.isAside;
    if (word === "use") this.isAside = this.aside.has(name);
    return word === "use" ? this.isAside : this.aside.delete(name);
  }

  // Puts an entry into its part of the journal. In the other part a document that begins still counts as a life.
  divide(entry, isAside) {
    const [own, other] = isAside ? [this.others, this.entries] : [this.entries, this.others];
    own.push(entry);
    if (entry.isParted || entry.isElsewhere) other.push(entry);
    if (entry.line !== undefined && BEGINNINGS.has(wordOf(entry.line))) other.push({ isElsewhere: true });
  }

  // The life of the document that a line is about, or undefined.
  lifeOf(line) {
    const [word, name] = [wordOf(line), line.split(" ")[1]];
    if (BEGINNINGS.has(word)) return this.openDocuments.lives + 1;
    return (isAboutDocuments(line) ? this.openDocuments.byName.get(name) : this.openDocuments.document)?.life;
  }

  // ---- what is done
  async takeAccepted(entry) {
    const { line, reply, file, gesture } = entry;
    if (!isAboutDocuments(line) && this.ended.has(this.openDocuments.document?.life)) return;
    try {
      await this.takeLine(entry);
    } catch (fault) {
      this.endDocument(line, fault);
      return;
    }
    if (file && file.path !== null) this.names.take(line.split(" ")[2], file.path);
    this.openDocuments.note(entry, () => this.editor.told());
    const row = [this.listed.length + 1, cut(line), reply === SAVED ? "no 51 store failed" : reply, null, cellsIn(line), gesture];
    if (wordOf(line) === "save") this.pending.set(this.openDocuments.document, { row });
    if (wordOf(line) === "dirty") this.pending.delete(this.openDocuments.document);
    this.listed.push(row);
  }

  // The document of a line that has failed.
  endDocument(line, fault) {
    const life = this.lifeOf(line);
    if (life === undefined) throw fault;
    if (!this.isLenient || this.module.isBroken) throw new OfDocument(life, fault);
    this.fault = fault;
    if (life <= this.openDocuments.lives) {
      this.ended.add(life);
      return;
    }
    this.openDocuments.lives++;
    this.aside.add(line.split(" ")[1]);
    this.isAside = true;
  }

  // Does a line of a journal. A save marks the map, and writes no file.
  async takeLine({ line, reply, file }) {
    if (reply === SAVED) return this.see(line, answerTo(this.editor, "clean").refusal === null, reply);
    const came = file ? await opened(this.editor, line.split(" ")[1], file.bytes) : answerTo(this.editor, line);
    return this.see(line, came.reply === reply || (this.isLenient && came.refusal === null), reply, came.reply);
  }

  see(line, isSame, reply, came = "a refusal") {
    if (isSame) return;
    console.warn(`'${cut(line)}' gives '${cut(came ?? "")}', and gave '${cut(reply ?? "")}'`);
    throw new Otherwise("one of its steps comes out otherwise than it did");
  }

  // Takes what a journal tells of a file: that a save has sent bytes there, or that they have arrived.
  takeFile({ sent, written }) {
    const { word, path, mark } = sent ?? written;
    this.names.take(word, path);
    const document = this.openDocuments.found(sent ?? written);
    if (document && sent) {
      document.send(sent);
      if (this.pending.has(document)) this.pending.get(document).sent = sent;
    } else if (document) {
      document.arrive(written);
      if (this.pending.has(document)) this.pending.get(document).row[2] = `saved ${word} ${mark.size}`;
      this.pending.delete(document);
    }
  }
}
