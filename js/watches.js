// SPDX-License-Identifier: MIT OR Apache-2.0
// Callbacks that are told what lines did to a document.
import { InCallback } from "./faults.js";
import { DIFFERS, standingOf, toldOf } from "./told.js";

// The callbacks of a document, and how it stood when it was looked at last.
class Watched {
  #standing;

  constructor(standing) {
    this.#standing = standing;
    this.callbacks = new Set();
  }

  // Whether a line has changed the map, its selection or how the document stands, which is noted.
  isChanged(numbers) {
    const standing = standingOf(numbers);
    const isOther = standing !== this.#standing;
    this.#standing = standing;
    return isOther || numbers[DIFFERS] !== 0;
  }
}

/** What lines did to watched documents, which is told behind the call that has said them. */
export class Events {
  #watched = new Map();
  #pending = [];
  #isTelling = false;
  // How many calls are under way that say several lines.
  #depth = 0;

  /** Whether a document is watched. */
  get isWatching() {
    return this.#watched.size > 0;
  }

  /** Whether a callback is being called: it may read, and not edit. */
  get isTelling() {
    return this.#isTelling;
  }

  /** Throws InCallback in a callback. */
  refuse(call) {
    if (this.#isTelling) {
      throw new InCallback(call);
    }
  }

  /** Has a callback told of a document, which stands so now. Gives a function that ends it. */
  add(document, standing, callback) {
    const watched = this.#watched.get(document) ?? new Watched(standing);
    const own = (told) => callback(told);
    this.#watched.set(document, watched);
    watched.callbacks.add(own);
    return () => {
      watched.callbacks.delete(own);
      if (watched.callbacks.size === 0 && this.#watched.get(document) === watched) {
        this.#watched.delete(document);
      }
    };
  }

  /** Ends all callbacks of a document. */
  drop(document) {
    this.#watched.get(document)?.callbacks.clear();
    this.#watched.delete(document);
  }

  /** Notes what a line did to the document that is active. */
  note(document, numbers) {
    const watched = this.#watched.get(document);
    if (watched?.isChanged(numbers)) {
      this.#pending.push([watched, toldOf(numbers)]);
    }
  }

  /** What work gives. What its lines did is told behind all of it, each by `call`. */
  behind(work, call) {
    this.#depth += 1;
    try {
      return work();
    } finally {
      this.#depth -= 1;
      this.tell(call);
    }
  }

  /** Tells what was noted, where no call is under way that says more lines: `call` calls a callback. */
  tell(call) {
    if (this.#pending.length === 0 || this.#depth > 0 || this.#isTelling) {
      return;
    }
    this.#isTelling = true;
    try {
      while (this.#pending.length > 0) {
        const [watched, told] = this.#pending.shift();
        for (const callback of [...watched.callbacks]) {
          // One that was called before may have ended it.
          if (watched.callbacks.has(callback)) {
            call(() => reported(callback, told));
          }
        }
      }
    } finally {
      this.#isTelling = false;
    }
  }

  /** Forgets all. */
  clear() {
    this.#watched.clear();
    this.#pending.length = 0;
  }
}

// Calls a callback. What it throws goes no further.
function reported(callback, told) {
  try {
    callback(told);
  } catch (fault) {
    console.error("a callback of a change has failed", fault);
  }
}
