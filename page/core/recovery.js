// SPDX-License-Identifier: MIT OR Apache-2.0
// What the journals are for: at the start of the page the documents of windows that live no more are offered, with all their steps.
//
// A journal that fails, whatever it throws, is told of and kept. It stops neither the page nor another journal. Where one is kept as a
// session, its lines are read for the names of files.
import { brokenJournals, forgetBroken } from "./broken_journals.js";
import { ask, byId, destroying } from "../panels/dom.js";
import { HeldEntries } from "./held_entries.js";
import { heldLocks, lock } from "./journal.js";
import { brokenNames, isOld, isUntouched, isWhole, leftOf, namesOf } from "./left_journals.js";
import { notice } from "../panels/notice_bars.js";
import { ChosenFiles, FolderFiles, download } from "../files/places.js";
import { OfDocument } from "./replay.js";
import { marksOf } from "./session_marks.js";
import { isSameSource, wordsOf } from "../files/sources.js";
import { thrownWords } from "./thrown_words.js";

// How many documents of a journal are left out at most, where they fail.
const MOST_LEFT_OUT = 10;
// The word behind `#` of a window that is opened for a journal.
const RESTORE = "restore=";

export class Recovery {
  constructor(bench, panel) {
    Object.assign(this, { bench, panel, editor: bench.editor, journal: bench.editor.journal, broken: new Map() });
    // Resolves when the page has shown the map that it took last.
    this.shown = async () => {};
  }

  // Takes up what this tab had before it was loaded anew, and offers what others have left. Gives whether something was taken up.
  async start() {
    try {
      return await this.takeLeft(await this.journal.left());
    } catch (fault) {
      console.warn(fault);
      notice("journals", `What was left in this browser cannot be read: ${thrownWords(fault)}.`, [["OK", () => {}]]);
      return false;
    }
  }

  async takeLeft(left) {
    if (!this.journal.database) return false;
    this.broken = brokenJournals();
    const mine = this.journal.ownOf(left);
    const rows = await this.withoutEnded(left, mine);
    await this.sayNotKept(rows);
    const wanted = location.hash.startsWith(`#${RESTORE}`) && rows.find(row => row.id === location.hash.slice(1 + RESTORE.length));
    if (wanted) history.replaceState(null, "", location.pathname + location.search);
    const own = wanted || (rows.includes(mine) && (!isWhole(mine) || (await this.isAtHand(mine))) ? mine : null);
    const isTaken = own ? await this.restore(own) : false;
    for (const row of rows) if (row !== own) await this.offer(row);
    return isTaken;
  }

  // The journals but for those that have ended: all of their documents are closed, or they had none but maps that were only opened. Those
  // are forgotten.
  async withoutEnded(left, mine) {
    const isOver = row => row !== mine && isOld(row) && !this.brokenOf(row).length;
    const hasEnded = row => isWhole(row) && (!row.documents.length || this.broken.get(row.id)?.length === 0 || isOver(row));
    for (const row of left.filter(hasEnded)) await this.journal.forget(row.id).catch(fault => console.warn(fault));
    return left.filter(row => !hasEnded(row));
  }

  // Says of windows of which nothing was kept at all what they had.
  async sayNotKept(rows) {
    const isHeld = await heldLocks();
    for (const [id, documents] of this.broken) {
      if (rows.some(row => row.id === id) || isHeld(id)) continue;
      if (documents.length) this.sayBrokenOff(id, `The browser kept nothing of what a window had: ${brokenNames(documents)}.`);
      else forgetBroken(id);
    }
  }

  sayBrokenOff(id, words) {
    notice(`broken ${id}`, words, [["OK", () => forgetBroken(id)]]);
  }

  // What is known of the documents of which later steps are missing in a journal. One that has gone on since is whole again.
  brokenOf(row) {
    const stands = ({ name, kept }) => kept === null || row.documents.some(each => each.name === name && each.steps === kept);
    return (this.broken.get(row.id) ?? []).filter(each => !each.isWhole && stands(each));
  }

  async offer(row) {
    if (!isWhole(row)) return this.keepUnread(row);
    const broken = this.brokenOf(row);
    if (isUntouched(row) && !broken.length) return;
    const missing = broken.length ? " Then the browser stopped keeping it: later steps are missing." : "";
    notice(row.id, `${leftOf(row, broken)}.${missing}${await this.fromOf(row)}`, [
      ["Restore", () => this.restoreHere(row), "Open these documents with all their steps"],
      ["As a session", () => this.downloadSession(row), "The lines that were done, as a file"],
      ["Forget", () => this.forget(row)],
    ], "mild");
  }

  // ---- restoring
  // Restores a journal in this window where nothing was done in it, and else in another one.
  restoreHere(row, work = () => this.restore(row)) {
    if (this.editor.isUntouched) return work();
    open(`${location.pathname}${location.search}#${RESTORE}${row.id}`);
    return true;
  }

  // The mark of a replay stays until the page has shown what came back: where that ends the page, it is not taken up again unasked. A page
  // that is ready may be left before.
  async restore(row) {
    const unmark = this.journal.replaying(row.id);
    const leave = () => document.body.dataset.isReady && unmark();
    const end = () => {
      removeEventListener("pagehide", leave);
      unmark();
    };
    addEventListener("pagehide", leave);
    const isTaken = await this.editor.during(this.replayed(row)).catch(fault => this.keepFailed(row, fault));
    if (isTaken) this.editor.during(this.shown().then(end, fault => console.warn(fault)));
    else end();
    return isTaken;
  }

  async replayed(row) {
    if (!isWhole(row)) return this.keepUnread(row);
    if (row.version !== this.editor.version) {
      return this.keep(row, `It is of version ${row.version}, and this page of ${this.editor.version}.`, true);
    }
    const giveBack = await lock(row.id);
    if (!giveBack) return this.keep(row, "Its window is still open.");
    try {
      const { made, held, faults } = await this.replayWhole(row);
      await this.journal.end();
      const pending = this.editor.takeUp(made);
      if (faults.size) await this.journal.restart(made.entries);
      else this.journal.adopt(row, held);
      await this.takeFiles(row, pending);
      if (faults.size) await this.leaveRest(row, made, faults).finally(giveBack);
    } catch (fault) {
      giveBack();
      throw fault;
    }
    const broken = this.brokenOf(row);
    if (broken.length) this.sayBrokenOff(row.id, `The browser had stopped keeping this window, so later steps are missing: ${brokenNames(broken)}.`);
    await this.panel.documents.outside.look().catch(fault => console.warn(fault));
    return true;
  }

  // Does the lines of a journal: a document that fails is left out of another try. Gives the replay, the entries that it holds, and the
  // faults by the lives of their documents. Throws where nothing is left.
  async replayWhole(row) {
    const faults = new Map();
    while (faults.size <= MOST_LEFT_OUT) {
      const held = new HeldEntries();
      try {
        const made = await this.replayOf(row, { held, without: new Set(faults.keys()) });
        if (!faults.size || made.openDocuments.byName.size) return { made, held, faults };
        made.editor.close();
        break;
      } catch (fault) {
        if (!(fault instanceof OfDocument)) throw fault;
        faults.set(fault.life, fault);
      }
    }
    throw [...faults.values()][0];
  }

  // Leaves the documents that were left out in their journal; the others are in that of this window.
  async leaveRest(row, made, faults) {
    this.journal.keepSource(await this.journal.database.filesOf(row.id));
    await this.journal.work;
    const documents = row.documents.filter(each => made.aside.has(each.name));
    const [fault] = faults.values();
    if (!this.journal.isKept) this.keepFailed(row, fault);
    // Those that were closed later are not missed.
    else if (!documents.length) await this.journal.forget(row.id);
    else this.keepFailed(await this.journal.leave(row, made.others, documents), fault);
  }

  // Does the lines of a journal, while nothing else is done.
  async replayOf(row, { held = null, isLenient, without }) {
    document.body.inert = true;
    try {
      const onLines = lines => (byId("standing").textContent = `${lines} lines ..`);
      return await this.editor.replay(row, this.journal.entriesOf(row, held), { onLines, isLenient, without });
    } finally {
      document.body.inert = false;
    }
  }

  // Opens the maps of a journal as far as its lines can be done, without their steps, in a journal of this window. The old one is kept.
  async restoreMaps(row) {
    const giveBack = await lock(row.id);
    if (!giveBack) return this.keep(row, "Its window is still open.");
    try {
      const made = await this.replayOf(row, { isLenient: true });
      await this.journal.end();
      await this.takeFiles(row, this.editor.takeUp(made));
      await this.editor.beginAnew();
      this.journal.keepSource(await this.journal.database.filesOf(row.id));
      const far = made.fault ? "as they stood where it could be read last" : "as they stood at last";
      return this.keep(row, `Its maps are open, ${far}, and without their steps.`);
    } finally {
      giveBack();
    }
  }

  // The files of what was restored: where they are not at hand, its documents have none from now on.
  async takeFiles(row, pending) {
    const isAtHand = await this.restorePlace(row).catch(fault => console.warn(fault));
    if (!isAtHand) {
      this.panel.part(row.source);
      this.journal.keepSource();
    }
    const lost = isAtHand ? await this.editor.lostSaves(pending) : pending.map(({ document }) => document);
    this.editor.settle();
    for (const document of lost) this.editor.unsave(document);
  }

  // ---- where the files are
  // Whether the files of a journal are those that this window has, or can take from the journal.
  async isAtHand({ source }) {
    const { place } = this.editor;
    return place.kind === "served" || source.kind === "served" ? isSameSource(source, place) : true;
  }

  // What is said of a journal whose files are not those of this window.
  async fromOf(row) {
    const { place } = this.editor;
    if (!(await this.isAtHand(row))) return ` They are of ${wordsOf(row.source)}, and come back without their files.`;
    const isOther = row.source.kind === "folder" && place.kind === "folder" && !(await isSameSource(row.source, place));
    return isOther ? ` They are of ${wordsOf(row.source)}, which comes back with them.` : "";
  }

  // Takes the files of a journal: those that were chosen, or a folder, which the user must allow again. Gives whether they are at hand.
  async restorePlace({ id, source }) {
    const { place } = this.editor;
    if (place.kind === "served" || source.kind === "served") return isSameSource(source, place);
    if (source.kind === "folder") return this.takeFolder(source);
    const chosen = new ChosenFiles();
    chosen.take(await this.journal.database.filesOf(id));
    this.panel.take(chosen);
    return true;
  }

  async takeFolder(source) {
    if (await isSameSource(source, this.editor.place)) return true;
    if (!source.folder) return false;
    const place = new FolderFiles(source.folder);
    if (await place.isAllowed()) this.panel.take(place);
    else this.askFolder(place);
    return true;
  }

  askFolder(place) {
    this.editor.place = place;
    notice("folder", `The browser asks anew for the folder ${place.title}.`, [["Allow it", async () => {
      const isAllowed = await place.ask();
      if (isAllowed) this.panel.take(place);
      return isAllowed;
    }]]);
  }

  // ---- journals that are not restored: they stay where they are
  // `hasMaps` tells whether its maps may be had all the same.
  keep(row, why, hasMaps = false) {
    const maps = ["Open the maps", () => this.restoreHere(row, () => this.mapsOf(row)), "The maps as they stood where it can be read last, without their steps"];
    notice(row.id, `${leftOf(row, this.brokenOf(row))}. ${why} It is kept.`, [
      ...(hasMaps ? [maps] : []),
      ["As a session", () => this.downloadSession(row)],
      ["Forget", () => this.forget(row)],
    ]);
    return false;
  }

  keepFailed(row, fault) {
    console.warn(fault);
    return isWhole(row) ? this.keep(row, `It cannot be restored: ${thrownWords(fault)}.`, true) : this.keepUnread(row);
  }

  // Gives false, so that a notice that has asked for it stays.
  async mapsOf(row) {
    await this.editor.during(this.restoreMaps(row)).catch(fault => {
      console.warn(fault);
      this.keep(row, `Its maps cannot be opened: ${thrownWords(fault)}.`);
    });
    return false;
  }

  keepUnread(row) {
    notice(String(row.id), "A journal in this browser cannot be read: it is damaged, or no page of this version has written it. It is kept.", [
      ["As a session", () => this.downloadSession(row)],
      ["Forget", () => this.forget(row)],
    ]);
    return false;
  }

  // The lines of a journal, as far as they can be read.
  async downloadSession(row) {
    const lines = [];
    try {
      for await (const { line, file } of this.journal.entriesOf(row)) {
        const word = line?.split(" ")[2];
        if (file && file.path !== word) lines.push(`# ${word} is ${file.path === null ? "a map without a file" : `the file ${file.path}`}`);
        if (line) lines.push(line);
      }
    } catch (fault) {
      lines.push(`# ${thrownWords(fault)}`);
    }
    const name = isWhole(row) ? row.documents[0].name : "journal";
    download(`${name}.session`, new TextEncoder().encode([...marksOf(lines), ...lines].map(line => `${line}\n`).join("")), "text/plain");
    return false;
  }

  async forget(row) {
    const names = isWhole(row) ? namesOf(row, this.brokenOf(row)) : "the journal that cannot be read";
    if (!(await ask(`Forget ${names}?`, [], [destroying("Forget")]))) return false;
    await this.journal.forget(row.id);
    return true;
  }
}
