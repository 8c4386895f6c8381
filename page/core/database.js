// SPDX-License-Identifier: MIT OR Apache-2.0
// The journals in the browser's database (IndexedDB): of each one a row, its records in order, and the files that were chosen for it.
import { Said } from "./thrown_words.js";

const NAME = "roskevad";
const ROWS = "journals";
const RECORDS = "records";
const FILES = "files";
// How many records are read at once.
const BATCH = 500;

// What is put behind a torn piece of a log, and taken away again: so many values of so many bytes under an id. How many milliseconds the
// browser then has to put the log away.
const PADDING = "padding";
const [PIECES, PIECE] = [100, 60_000];
const PASSING = 500;

// What a request gives.
function resultOf(request) {
  return new Promise((resolve, reject) => {
    request.onsuccess = () => resolve(request.result);
    request.onerror = () => reject(request.error);
  });
}

// All that has an id as the first part of its key.
const allOf = id => IDBKeyRange.bound([id], [id, []]);

export class Database {
  // Opens it. Throws where the browser keeps nothing. `onEnd` is called with a fault where the browser closes it, as where it takes away
  // what it keeps.
  static async open(onEnd) {
    const request = indexedDB.open(NAME, 1);
    request.onupgradeneeded = () => {
      const made = request.result;
      made.createObjectStore(ROWS, { keyPath: "id" });
      made.createObjectStore(RECORDS, { keyPath: ["journal", "at"] });
      made.createObjectStore(FILES, { keyPath: ["journal", "path"] });
    };
    const database = new Database();
    database.opened = await resultOf(request);
    database.opened.onclose = () => onEnd(new Said("the browser has closed its database"));
    return database;
  }

  close() {
    this.opened.close();
  }

  // Has the browser begin another log behind a write that has failed. Chromium goes on in the same one, behind the piece that was written,
  // and finds all of its databases damaged at the next start; it begins another one behind 4 MiB, where a value of 64 KiB does not count.
  async passTornLog() {
    const pieces = Array.from({ length: PIECES }, (_, at) => ({ journal: PADDING, at, bytes: crypto.getRandomValues(new Uint8Array(PIECE)) }));
    await this.write(({ records }) => pieces.forEach(piece => records.put(piece)));
    await this.forget(PADDING);
    await new Promise(done => setTimeout(done, PASSING));
  }

  // Does something in one transaction, which is on the disk when this resolves.
  write(work) {
    return new Promise((resolve, reject) => {
      const transaction = this.opened.transaction([ROWS, RECORDS, FILES], "readwrite", { durability: "strict" });
      transaction.oncomplete = () => resolve();
      transaction.onabort = () => reject(transaction.error ?? new Said("the database has stopped"));
      try {
        work({ rows: transaction.objectStore(ROWS), records: transaction.objectStore(RECORDS), files: transaction.objectStore(FILES) });
      } catch (fault) {
        // Else the part that was done would be kept.
        reject(fault);
        transaction.abort();
      }
    });
  }

  read(store, ask) {
    return resultOf(ask(this.opened.transaction([store], "readonly").objectStore(store)));
  }

  // All rows: those that can be read. One that cannot is no more than its id.
  async rows() {
    const ids = await this.read(ROWS, rows => rows.getAllKeys());
    return Promise.all(ids.map(id => this.row(id).catch(() => ({ id }))));
  }

  row(id) {
    return this.read(ROWS, rows => rows.get(id));
  }

  filesOf(id) {
    return this.read(FILES, files => files.getAll(allOf(id)));
  }

  // The records of a journal, in order.
  async *recordsOf(id) {
    let from = [id];
    for (;;) {
      const found = await this.read(RECORDS, records => records.getAll(IDBKeyRange.bound(from, [id, []], from.length > 1), BATCH));
      yield* found;
      if (found.length < BATCH) return;
      from = [id, found[found.length - 1].at];
    }
  }

  // Puts one record, or none, in the place of all that a journal has, and files in the place of its files, where any are given.
  restart(row, record, files = null) {
    return this.write(({ rows, records, files: kept }) => {
      records.delete(allOf(row.id));
      if (record) records.put(record);
      rows.put(row);
      if (!files) return;
      kept.delete(allOf(row.id));
      for (const { path, bytes, time } of files) kept.put({ journal: row.id, path, bytes, time });
    });
  }

  forget(id) {
    return this.write(({ rows, records, files }) => {
      rows.delete(id);
      records.delete(allOf(id));
      files.delete(allOf(id));
    });
  }
}
