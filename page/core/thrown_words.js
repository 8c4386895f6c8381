// SPDX-License-Identifier: MIT OR Apache-2.0
// Words for what was thrown. What a browser says of its own faults is for its makers, and is never shown.

// A fault whose message is for those who use the page.
export class Said extends Error {}

// What the browser's faults mean, by their names.
const MEANINGS = {
  AbortError: "it was broken off",
  DataError: "the browser cannot keep it",
  EncodingError: "its text or image cannot be read",
  InvalidModificationError: "the browser does not let the file be changed",
  InvalidStateError: "the browser has closed it",
  NoMemory: "there is not memory enough for it",
  NoModificationAllowedError: "another program holds it, or it may not be written",
  NotAllowedError: "the browser does not allow it",
  NotFoundError: "it is not there any more",
  NotReadableError: "it cannot be read: another program may hold it, or you may not read it",
  QuotaExceededError: "the disk is full, or the browser's share of it",
  RangeError: "there is not memory enough for it",
  SecurityError: "the browser does not allow it",
  TypeMismatchError: "a folder or another thing has its name",
  UnknownError: "the browser fails at it, as where its disk is full",
};

// Why something has failed, by what was thrown: part of a sentence.
export function thrownWords(fault) {
  if (fault instanceof Said) return fault.message;
  console.warn(fault);
  return MEANINGS[fault?.name] ?? "the page fails at it";
}
