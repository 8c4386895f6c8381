// SPDX-License-Identifier: MIT OR Apache-2.0
// What is known of a journal that is broken off: how far its documents are kept, and how far they had come. It stands beside the database,
// which takes nothing then, in a store of the browser that is small and takes words at once.
const PREFIX = "roskevad-broken-";

const isText = value => typeof value === "string";
const isCount = value => Number.isInteger(value) && value >= 0;
const orNull = (value, isRight) => value === null || isRight(value);
const isDocument = each => isText(each?.name) && orNull(each.path, isText) && orNull(each.kept, isCount) && isCount(each.steps);

// Keeps for a journal what is told of its documents, [{ name, path, kept, steps, isWhole }]: up to which step each is kept, or null, and
// whether nothing of it is missing. Where the browser has no room for that either, nobody will know.
export function noteBroken(id, documents) {
  try {
    localStorage.setItem(PREFIX + id, JSON.stringify(documents));
  } catch (fault) {
    console.warn(`that the journal is broken off is not kept: ${fault.message}`);
  }
}

export function forgetBroken(id) {
  try {
    localStorage.removeItem(PREFIX + id);
  } catch {
    // There is no such store, so nothing is in it.
  }
}

// What was kept so, by the ids of the journals.
export function brokenJournals() {
  const found = new Map();
  try {
    for (let at = 0; at < localStorage.length; at++) {
      const key = localStorage.key(at);
      const documents = key.startsWith(PREFIX) ? JSON.parse(localStorage.getItem(key)) : null;
      if (Array.isArray(documents) && documents.every(isDocument)) found.set(key.slice(PREFIX.length), documents);
    }
  } catch (fault) {
    console.warn(`what is broken off is not known: ${fault.message}`);
  }
  return found;
}
