// SPDX-License-Identifier: MIT OR Apache-2.0
// The entries of a journal that its window holds, from the first one on, so that the journal can be written anew, whole.

// The most bytes that are held, and what an entry takes beside its line, its reply and its file.
const MOST = 64 * 1024 * 1024;
const OF_ENTRY = 64;

// What entries take, where a unit of a text counts as a byte.
export function sizeOf(entries) {
  return entries.reduce((sum, { line = "", reply = "", file }) => sum + line.length + (reply?.length ?? 0) + (file?.bytes.length ?? 0) + OF_ENTRY, 0);
}

export class HeldEntries {
  constructor(entries = []) {
    // Null where they are too many to be held.
    this.entries = [];
    this.size = 0;
    for (const entry of entries) this.add(entry);
  }

  add(entry) {
    if (!this.entries) return;
    this.size += sizeOf([entry]);
    if (this.size > MOST) this.entries = null;
    else this.entries.push(entry);
  }
}
