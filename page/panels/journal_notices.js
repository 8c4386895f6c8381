// SPDX-License-Identifier: MIT OR Apache-2.0
// What is said where the journal of this window is broken off, or full, and where a map cannot be shown; and how the journal begins anew.
import { ask, byId, destroying } from "./dom.js";
import { endNotice, hasNotice, notice } from "./notice_bars.js";
import { download } from "../files/places.js";
import { titleOf } from "./tabs.js";
import { thrownWords } from "../core/thrown_words.js";

const MEBIBYTE = 1024 * 1024;
const SAID = "roskevad-said-that-nothing-is-kept";
const END = "End it and begin anew";
// What browsers say where there is no room.
const IS_ROOM = /quota|no_?space|full/i;
// How many milliseconds lie between two looks whether the hand is off the map.
const LOOK = 100;

export class JournalNotices {
  constructor(bench, documents) {
    Object.assign(this, { bench, documents, editor: bench.editor, journal: bench.editor.journal, isBeginning: false });
    const tells = {
      broken: ({ detail }) => this.sayBroken(detail), mended: () => this.sayMended(), lost: () => this.beginFromMaps(), full: () => this.sayFull(),
    };
    for (const [name, tell] of Object.entries(tells)) this.journal.addEventListener(name, tell);
    this.editor.addEventListener("broken", () => this.sayEnded());
    this.editor.addEventListener("unopened", ({ detail }) => this.sayUnopened(detail));
    this.editor.addEventListener("unshown", ({ detail }) => this.sayUnshown(detail));
    addEventListener("beforeunload", event => this.mayLeave() || event.preventDefault());
  }

  // Whether the window may go without a question: all that was done is kept, or saved.
  mayLeave() {
    return this.journal.isKept || this.editor.documents().every(each => each.isClean);
  }

  // ---- broken off
  // The sign in the bar below the map stands for as long as nothing is kept.
  showSign() {
    const { fault } = this.journal;
    byId("kept").hidden = !fault;
    byId("kept").title = fault ? "The browser keeps nothing of what is done now: what is not saved is lost with this window." : "";
  }

  sayBroken(fault) {
    this.showSign();
    if (this.journal.isOver) return;
    const ok = [["OK", () => {}]];
    if (this.journal.database) {
      const why = IS_ROOM.test(`${fault.name} ${fault.message}`) ? "its disk is full, or its share of it" : "its database has failed";
      notice("journal", `The browser keeps nothing more: ${why}. Until it does again, what is not saved is lost with this window.`, ok);
    } else if (!sessionStorage.getItem(SAID)) {
      sessionStorage.setItem(SAID, "yes");
      notice("journal", `This browser keeps nothing here (${thrownWords(fault)}): what is not saved is lost with this window.`, ok);
    }
  }

  sayMended(words = "The browser keeps all of this window again, with its steps.") {
    this.showSign();
    if (this.isBeginning) return;
    notice("journal", words, [["OK", () => {}]], "mild");
  }

  // What was kept is gone, and this window holds it no more.
  async beginFromMaps() {
    if (this.isBeginning) return;
    await this.beginning(async () => {
      await this.saved();
      while (this.bench.isHeld) await new Promise(done => setTimeout(done, LOOK));
      await this.editor.beginAnew();
    });
    if (this.journal.isKept) this.sayMended("The browser keeps this window again, from the maps as they are now: the steps until here have ended.");
  }

  // Does work by which the journal begins anew. Gives what it gives, or false.
  async beginning(work) {
    this.isBeginning = true;
    try {
      return await this.editor.during(work());
    } catch (fault) {
      this.bench.say(`It did not begin anew: ${thrownWords(fault)}.`);
      return false;
    } finally {
      this.isBeginning = false;
    }
  }

  // Resolves once the saves have ended that are under way.
  saved() {
    return Promise.all([...this.editor.openDocuments.byName.values()].map(document => document.written()));
  }

  // ---- full
  sayFull() {
    if (this.isBeginning || hasNotice("full")) return;
    const bound = Math.round(this.journal.bound / MEBIBYTE);
    notice("full", `The browser has no more room for the steps of this window (${bound} MiB). Save the maps and begin anew: their steps end there.`, [
      ["Save and begin anew", () => this.beginning(() => this.beginAnew())],
      ["Go on without it", () => this.journal.giveUp(), "What is not saved is lost with this window"],
    ]);
  }

  async beginAnew() {
    await this.saved();
    if (!(await this.endMacros())) return false;
    for (const { name, isClean, path } of this.editor.documents()) {
      if (isClean && path) continue;
      const done = await this.documents.saveOf(this.editor.openDocuments.byName.get(name));
      if (!done.isAccepted) return false;
    }
    await this.editor.beginAnew();
    endNotice("full");
    return true;
  }

  // Ends the macros that are open, where the user wants that. Gives whether none is open.
  async endMacros() {
    const open = this.editor.documents().filter(each => each.depth);
    if (!open.length) return true;
    const names = open.map(titleOf).join(" and ");
    if (!(await ask(`A macro is open in ${names}. It ends where the journal begins anew; what is in it stays, as one step.`, [], [END]))) return false;
    const back = `use ${this.editor.openDocuments.active ?? "-"}`;
    const lines = open.flatMap(({ name, depth }) => [`use ${name}`, ...Array(depth).fill("end")]);
    return this.bench.sayRefusal(this.editor.doLines([...lines, back])).isAccepted;
  }

  // ---- the editor, and maps that cannot be shown
  sayEnded() {
    notice("editor", "The page has stopped, by a fault of its own. What was done is kept.", [["Load anew", () => location.reload()]]);
  }

  sayUnopened({ path, why }) {
    notice(`unopened ${path}`, `${path} was not opened, since it cannot be shown: ${why}. The file is as it was.`, [["OK", () => {}]]);
  }

  // Says that the map of the active document cannot be shown. Without a document it is, or another one is active.
  sayUnshown(detail) {
    if (!detail) return endNotice("unshown");
    const { document, why } = detail;
    const title = titleOf({ name: document.name, path: document.file?.path });
    const session = this.editor.copied();
    notice("unshown", `${title} cannot be shown: ${why}. It is open all the same, with its steps.`, [
      ["As a session", () => {
        download(`${document.name}.session`, new TextEncoder().encode(session), "text/plain");
        return false;
      }, "The lines that were done, as a file"],
      ["Forget", () => this.forget(document, title)],
    ]);
    return null;
  }

  async forget(document, title) {
    if (!(await ask(`Forget ${title}, with its steps? What is not saved is lost.`, [], [destroying("Forget")]))) return false;
    return (await this.documents.closed(document, "discard"))?.isAccepted ?? true;
  }
}
