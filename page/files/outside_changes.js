// SPDX-License-Identifier: MIT OR Apache-2.0
// Files that change outside of the page: they are told of, loaded anew, saved over, or left as they are.
//
// What waits for an answer or for a file holds the document itself. A document that is closed meanwhile is left alone.
import { ask, destroying } from "../panels/dom.js";
import { lastOf } from "./names.js";
import { endNotice, hasNotice, notice } from "../panels/notice_bars.js";
import { saidOf } from "../core/refusals.js";
import { thrownWords } from "../core/thrown_words.js";

const REPLACE = "Replace it";
const RELOAD = "Reload";
const SAVE_AS = "Save as";
const KEEP_BOTH = "Keep both";

const aboutOf = document => `file ${document.name}`;

export class OutsideChanges {
  // `saveAs` saves a document under a name that is asked for, and `probe` tells whether a map would be refused.
  constructor(bench, saveAs, probe) {
    Object.assign(this, { bench, editor: bench.editor, saveAs, probe });
    // The documents that notices are about, and the mark of each one whose file is left as it is.
    this.noticed = new Map();
    this.kept = new WeakMap();
    this.editor.mayReplace = (document, path) => this.mayReplace(document, path);
    const look = () => document.hidden || this.look();
    addEventListener("focus", look);
    document.addEventListener("visibilitychange", look);
  }

  // Looks at the file of each document.
  async look() {
    if (this.isLooking) return;
    this.isLooking = true;
    // One that a session has closed, too.
    for (const document of this.noticed.values()) if (!this.editor.openDocuments.isOpen(document)) this.forget(document);
    try {
      for (const document of [...this.editor.openDocuments.byName.values()]) await this.lookAt(document);
    } finally {
      this.isLooking = false;
    }
  }

  async lookAt(document) {
    const { file } = document;
    const isChanged = file && !document.isWriting && (await this.editor.isChanged(document).catch(() => false));
    if (!this.editor.openDocuments.isOpen(document) || document.file !== file) return;
    if (isChanged && !document.isWriting) this.sayChanged(document);
    else this.forget(document);
  }

  // Nothing is said of a document any more.
  forget(document) {
    if (this.noticed.get(aboutOf(document)) !== document) return;
    this.noticed.delete(aboutOf(document));
    endNotice(aboutOf(document));
  }

  sayChanged(document) {
    if (this.kept.get(document) === document.file.mark) return;
    if (hasNotice(aboutOf(document)) && this.noticed.get(aboutOf(document)) === document) return;
    this.tell(document, `${document.file.path} has changed outside of this page.`);
  }

  tell(document, words) {
    this.noticed.set(aboutOf(document), document);
    notice(aboutOf(document), words, [
      [RELOAD, () => this.reload(document), "Show what the file has; the steps of the document end"],
      [SAVE_AS, async () => (await this.saveAs(document)).isAccepted, "Save what the page has into another file"],
      ["Not now", () => this.kept.set(document, document.file?.mark)],
    ]);
  }

  // Whether a save of a document may replace a file that has other bytes than the document knows. Each of the other answers begins once this
  // save has ended.
  async mayReplace(document, path) {
    const isOwn = document.own(path) !== null;
    const words = isOwn ? `${path} has changed since it was opened or saved.` : `${path} is there already.`;
    const others = isOwn ? [destroying(RELOAD), SAVE_AS] : [];
    const answer = (await ask(words, [], [destroying(REPLACE), ...others]))?.answer;
    if (answer === RELOAD) document.written().then(() => this.reload(document));
    if (answer === SAVE_AS) document.written().then(() => this.saveAs(document));
    return answer === REPLACE;
  }

  // ---- loading anew
  // Opens the file of a document anew, in the document's place. The document stays open until the new one is shown, and for good where the
  // file cannot be opened or its steps are to be kept. Gives whether nothing is left to be answered.
  async reload(document) {
    await document.written();
    if (!this.editor.openDocuments.isOpen(document) || !document.file) return true;
    const { path } = document.file;
    const found = await this.readable(path);
    if (!this.editor.openDocuments.isOpen(document) || document.own(path) === null) return true;
    if (found.words) return this.sayNotLoaded(document, found.words);
    const isKept = await this.keeps(document);
    if (isKept === null) return false;
    const lines = document.lines.length;
    // How the map is shown is kept under its file, and so goes over.
    this.bench.tell("layout");
    const done = await this.editor.reopen(document, found);
    if (!done.isAccepted) return this.sayNotLoaded(document, saidOf(done));
    this.forget(document);
    if (isKept || document.lines.length !== lines) this.editor.unsave(document);
    else this.editor.doLines([`discard ${document.name}`]);
    return true;
  }

  // The bytes of a file that would be opened; else { words }, which say why not.
  async readable(path) {
    try {
      const found = await this.editor.during(this.editor.place.read(path));
      if (!found) return { words: "The file is gone." };
      const { words } = await this.probe.lookInto(found.bytes);
      return words ? { words: `It is refused: ${words}.` } : found;
    } catch (fault) {
      return { words: `It cannot be read: ${thrownWords(fault)}.` };
    }
  }

  sayNotLoaded(document, words) {
    this.tell(document, `${document.file.path} has changed outside of this page. ${words} The map stays here as it was.`);
    return false;
  }

  // Whether the document is kept beside what its file has now: asked where steps end. Null where it is not to be loaded anew.
  async keeps({ name, file }) {
    const { count, isClean } = this.editor.documents().find(each => each.name === name);
    if (!count && isClean) return false;
    const steps = count === 1 ? "1 step ends" : `${count} steps end`;
    const ends = isClean ? `${steps}.` : `${count ? `${steps}, and ` : ""}what is not saved is lost.`;
    const answers = [destroying(isClean ? RELOAD : "Discard and reload"), KEEP_BOTH];
    const typed = await ask(`${lastOf(file.path)} is loaded anew: ${ends}`, [], answers);
    return typed && typed.answer === KEEP_BOTH;
  }
}
