// SPDX-License-Identifier: MIT OR Apache-2.0
// The journal of a window: each accepted line that changes something, with its reply, and the bytes that each `open` had read. It is in
// the browser's database, and stays there until the documents are closed.
//
// Where the database takes nothing, as on a full disk, the journal is broken off until it does again. Then what was added meanwhile is
// written behind what is there. Where that is gone, the journal is written anew, whole, from what the window holds.
import { forgetBroken, noteBroken } from "./broken_journals.js";
import { Database } from "./database.js";
import { hashOf, sumOf } from "../files/hashes.js";
import { HeldEntries, sizeOf } from "./held_entries.js";
import { Said } from "./thrown_words.js";

const MEBIBYTE = 1024 * 1024;
// The most bytes of a journal, where a unit of a text counts as one; and how many more are kept back for lines that only go along the steps.
const BOUND = 256 * MEBIBYTE;
const RESERVE = MEBIBYTE;
// How many milliseconds lie between two tries to go on with a journal that is broken off: where something is added meanwhile, and else. And
// how long behind a change it is noted beside the database. A log is passed once in such a time, since that writes much.
const [LEAST_PAUSE, PAUSE, PASSING_PAUSE] = [500, 2000, 60_000];
const NOTING = 300;
const OWN = "roskevad-journal";
const REPLAYING = "roskevad-replaying";

export const lockOf = id => `roskevad-journal-${id}`;

// A record's own sum: of all that it has but the bytes of files, whose hash is in it.
export const recordSum = entries => sumOf(JSON.stringify(entries, (name, value) => (name === "bytes" ? undefined : value)));

// A journal that is damaged; the message says how.
export class Damaged extends Said {}

// Takes the lock of a journal, and keeps it for as long as this window lives. Gives the call that gives it back; null where another
// window has it.
export function lock(id) {
  return new Promise((resolve, reject) => {
    navigator.locks.request(lockOf(id), { ifAvailable: true }, held => {
      if (!held) return resolve(null);
      return new Promise(giveBack => resolve(giveBack));
    }).catch(reject);
  });
}

// Events: `full` where it has reached its bound; `broken` where the browser keeps nothing from now on, and `mended` where it keeps all
// again; `lost` where it would, but what is kept is gone, and the window holds it no more: who learns that begins the journal anew.
export class Journal extends EventTarget {
  constructor(version, limit) {
    super();
    Object.assign(this, { version, limit, bound: BOUND, database: null, row: null, isFlushing: null, work: Promise.resolve() });
    // Why it is broken off, or null; whether for good; whether a write may be torn; and whether what the database has is not that to which
    // entries are added.
    Object.assign(this, { fault: null, isOver: false, isTorn: false, isStale: false, retry: null, tried: 0, passed: 0, noting: null });
    // The entries that are not written yet, with their size, how many were added and written, and who waits for how many: { count, resolve }.
    Object.assign(this, { queue: [], due: 0, added: 0, written: 0, waiting: [], held: new HeldEntries() });
    // What is told of this window's documents, where its files are, and those that were chosen:
    // [{ name, path, steps, isClean, lines }], { kind, title, folder, name } and [{ path, bytes, time }].
    this.summary = () => [];
    this.source = () => ({});
    this.files = () => [];
  }

  async start() {
    addEventListener("pagehide", () => this.note());
    try {
      await this.open();
    } catch (fault) {
      this.break(fault);
    }
  }

  async open() {
    this.database = await Database.open(fault => this.break(fault));
  }

  get id() {
    return this.row?.id ?? null;
  }

  get size() {
    return this.row?.size ?? 0;
  }

  get isKept() {
    return this.fault === null;
  }

  get isFull() {
    return this.isKept && this.size >= this.bound;
  }

  // Whether lines that only go along the steps have room, also behind the bound.
  get hasReserve() {
    return this.size < this.bound + RESERVE;
  }

  // ---- broken off
  // From now on nothing is kept, until the database takes it again.
  break(fault) {
    const isNew = this.fault === null;
    this.fault = fault ?? new Said("the database has failed");
    // What is past the browser's quota is refused before it is written.
    this.isTorn ||= this.fault.name !== "QuotaExceededError";
    this.isFlushing = null;
    this.tellWaiting(Infinity);
    this.noteSoon();
    if (isNew) this.dispatchEvent(new CustomEvent("broken", { detail: this.fault }));
    if (!this.isOver) this.retry ??= setTimeout(() => this.tryAgain(), PAUSE);
  }

  // From now on nothing is kept at all, as the user wishes.
  giveUp() {
    Object.assign(this, { isOver: true, queue: [], due: 0, held: new HeldEntries() });
    this.break(new Said("as you wish"));
  }

  tryAgain() {
    clearTimeout(this.retry);
    this.retry = null;
    this.tried = Date.now();
    this.run(() => this.mend());
  }

  // Goes on, if the database takes what is missing.
  async mend() {
    if (!this.fault || this.isOver) return;
    this.database?.close();
    await this.open();
    if (this.isTorn) await this.passTornLog();
    if (await this.isThere()) await this.append();
    else if (this.held.entries) await this.rewrite([...this.held.entries], this.added);
    else return this.dispatchEvent(new Event("lost"));
    this.mended();
  }

  async passTornLog() {
    if (Date.now() - this.passed < PASSING_PAUSE) throw this.fault;
    await this.database.passTornLog();
    Object.assign(this, { isTorn: false, passed: Date.now() });
  }

  // Whether the database has what was written until now.
  async isThere() {
    if (this.isStale) return false;
    const found = this.row && (await this.database.row(this.id));
    return found ? found.count === this.row.count : !this.row?.count && !this.row?.files;
  }

  mended() {
    clearTimeout(this.retry);
    Object.assign(this, { fault: null, isTorn: false, retry: null });
    if (this.row) forgetBroken(this.id);
    this.dispatchEvent(new Event("mended"));
    this.isFlushing ??= this.run(() => this.flush());
  }

  // Notes beside the database, a moment later, how far the documents have come since they are kept no more.
  noteSoon() {
    this.noting ??= setTimeout(() => this.note(), NOTING);
  }

  note() {
    clearTimeout(this.noting);
    this.noting = null;
    if (!this.fault || !this.row) return;
    const kept = new Map(this.row.documents.map(each => [each.name, each]));
    noteBroken(this.id, this.summary().map(({ name, path, steps, lines }) => {
      const before = kept.get(name);
      return { name, path, kept: before?.steps ?? null, steps, isWhole: before?.lines === lines };
    }));
  }

  // ---- writing
  // Adds an entry; `kept` tells when it is on the disk.
  add(entry) {
    if (this.fault) this.noteSoon();
    if (this.isOver) return;
    this.queue.push(entry);
    this.due += sizeOf([entry]);
    this.held.add(entry);
    this.added++;
    if (!this.fault) this.isFlushing ??= this.run(() => this.flush());
    else if (this.due > this.bound) this.drop(this.added);
    else if (Date.now() - this.tried > LEAST_PAUSE) this.tryAgain();
  }

  // Forgets entries that are not written, up to a count.
  drop(count) {
    const dropped = this.queue.splice(0, Math.max(0, count - this.written));
    this.due -= sizeOf(dropped);
    this.isStale ||= dropped.length > 0;
    this.tellWritten(Math.max(this.written, count));
  }

  // Works on the journal one behind the other.
  run(work) {
    this.work = this.work.then(work).catch(fault => this.break(fault));
    return this.work;
  }

  // Resolves when all that was added until now is on the disk, or is kept no more.
  kept() {
    if (this.fault || this.written >= this.added) return Promise.resolve();
    return new Promise(resolve => this.waiting.push({ count: this.added, resolve }));
  }

  tellWritten(count) {
    this.written = count;
    this.tellWaiting(count);
  }

  // Tells those who wait for what is written by now.
  tellWaiting(count) {
    const done = this.waiting.filter(each => each.count <= count);
    this.waiting = this.waiting.filter(each => each.count > count);
    for (const { resolve } of done) resolve();
  }

  async flush() {
    while (this.queue.length && !this.fault) await this.append();
    this.isFlushing = null;
    if (this.isFull) this.dispatchEvent(new Event("full"));
  }

  // Writes the entries that are not written yet, as one record.
  async append() {
    if (!this.queue.length) return;
    if (!this.row) await this.begin();
    const entries = [...this.queue];
    const record = { journal: this.id, at: this.row.count, entries, sum: recordSum(entries) };
    const row = { ...this.row, count: record.at + 1, size: this.size + sizeOf(entries), changed: Date.now(), documents: this.summary() };
    await this.database.write(({ rows, records }) => {
      records.put(record);
      rows.put(row);
    });
    this.row = row;
    this.queue.splice(0, entries.length);
    this.due -= sizeOf(entries);
    this.tellWritten(this.written + entries.length);
  }

  async begin() {
    const now = Date.now();
    const id = crypto.randomUUID();
    if (!(await lock(id))) throw new Said("the browser gives no lock");
    const { version, limit } = this;
    this.row = { id, version, limit, count: 0, size: 0, began: now, changed: now, documents: [], source: this.source() };
    sessionStorage.setItem(OWN, id);
    // Chromium keeps what it was asked for; others would ask the user.
    if ("userAgentData" in navigator) navigator.storage?.persist?.();
  }

  // Ends the journal: what comes next begins another one.
  end() {
    const count = this.added;
    this.held = new HeldEntries();
    return this.run(async () => {
      const { id } = this;
      this.drop(count);
      Object.assign(this, { row: null, isStale: false });
      sessionStorage.removeItem(OWN);
      if (!id) return;
      forgetBroken(id);
      await this.database?.forget(id);
    });
  }

  // Begins the journal anew with these entries alone, in one step, in the place of all that was added until now; the files that were
  // chosen stay.
  restart(entries) {
    const count = this.added;
    this.held = new HeldEntries(entries);
    return this.run(async () => {
      if (this.isOver || (!this.row && !entries.length)) return;
      if (!this.database) await this.open();
      await this.rewrite(entries, count);
      if (this.fault) this.mended();
    });
  }

  // Writes these entries in the place of what the database has. They stand for all that were added up to a count.
  async rewrite(entries, count) {
    if (!this.row) await this.begin();
    const files = this.fault ? this.files() : null;
    const ofFiles = files?.reduce((sum, { bytes }) => sum + bytes.length, 0) ?? this.row.files ?? 0;
    const record = { journal: this.id, at: 0, entries, sum: recordSum(entries) };
    const row = { ...this.row, count: entries.length ? 1 : 0, size: ofFiles + sizeOf(entries), files: ofFiles, changed: Date.now() };
    Object.assign(row, { documents: this.summary(), source: this.source() });
    this.isStale = true;
    await this.database.restart(row, entries.length ? record : null, files);
    this.row = row;
    this.drop(count);
    this.isStale = false;
  }

  // Goes on with the journal of a window that lives no more, whose lock this one has, and whose entries are held.
  adopt(row, held) {
    Object.assign(this, { row, held });
    sessionStorage.setItem(OWN, row.id);
  }

  // Leaves nothing in the journal of another window but these entries, about these documents.
  leave(row, entries, documents) {
    const record = { journal: row.id, at: 0, entries, sum: recordSum(entries) };
    const left = { ...row, count: 1, size: (row.files ?? 0) + sizeOf(entries), documents };
    return this.database.restart(left, record).then(() => left);
  }

  // Keeps where the files are, and the files that were chosen.
  keepSource(files = []) {
    // A journal that is broken off has them later.
    if (this.fault) this.isStale = true;
    else this.run(() => this.writeSource(files));
  }

  async writeSource(files) {
    if (!this.row) await this.begin();
    const added = files.reduce((sum, { bytes }) => sum + bytes.length, 0);
    const row = { ...this.row, source: this.source(), size: this.size + added, files: (this.row.files ?? 0) + added };
    this.isStale = true;
    await this.database.write(({ rows, files: kept }) => {
      rows.put(row);
      for (const { path, bytes, time } of files) kept.put({ journal: row.id, path, bytes, time });
    });
    this.row = row;
    this.isStale = false;
  }

  // ---- reading
  // The journals of windows that live no more.
  async left() {
    if (!this.database) return [];
    // A window has the lock before it writes the row.
    const rows = await this.database.rows();
    const isHeld = await heldLocks();
    return rows.filter(row => !isHeld(row.id));
  }

  // The journal that this tab had before it was loaded anew. One that was being replayed then is not taken up again unasked.
  ownOf(rows) {
    const id = sessionStorage.getItem(OWN);
    return rows.find(row => row.id === id && sessionStorage.getItem(REPLAYING) !== id) ?? null;
  }

  // Marks that a journal is replayed, and gives the call that takes the mark away.
  replaying(id) {
    sessionStorage.setItem(REPLAYING, id);
    return () => sessionStorage.getItem(REPLAYING) === id && sessionStorage.removeItem(REPLAYING);
  }

  // The entries of a journal in order, which `held` takes, too. Throws Damaged behind the last whole record.
  async *entriesOf(row, held = null) {
    let count = 0;
    for await (const { at, entries, sum } of this.database.recordsOf(row.id)) {
      if (at !== count || !Array.isArray(entries) || !entries.every(isEntry)) throw new Damaged("a part of it is missing");
      const isSame = recordSum(entries) === sum && (await areFilesSame(entries));
      if (!isSame) throw new Damaged("a part of it is not as it was written");
      for (const entry of entries) held?.add(entry);
      yield* entries;
      count++;
    }
    if (count !== row.count) throw new Damaged("its end is missing");
  }

  async forget(id) {
    forgetBroken(id);
    await this.database.forget(id);
  }
}

// Tells of an id whether a window has the lock of that journal.
export async function heldLocks() {
  const { held } = await navigator.locks.query();
  const names = new Set(held.map(each => each.name));
  return id => names.has(lockOf(id));
}

// Whether something is an entry: a line, with what it has read, or what is told of a file.
function isEntry(each) {
  const isObject = value => typeof value === "object" && value !== null;
  if (!isObject(each) || (each.file !== undefined && !(each.file?.bytes instanceof Uint8Array))) return false;
  return typeof each.line === "string" || isObject(each.sent) || isObject(each.written) || each.isParted === true || each.isElsewhere === true;
}

// Whether the files of entries have the bytes that they were kept with.
async function areFilesSame(entries) {
  for (const { file } of entries) if (file && (await hashOf(file.bytes)) !== file.hash) return false;
  return true;
}
