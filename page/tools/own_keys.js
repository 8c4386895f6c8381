// SPDX-License-Identifier: MIT OR Apache-2.0
// Keys of one's own in the place of those of the page, which the browser keeps for all windows: the words of each row of the table that was
// changed, with its keys.
const KEPT = "roskevad-own-keys";

function read() {
  try {
    const found = JSON.parse(localStorage.getItem(KEPT));
    const isRow = ([, keys]) => Array.isArray(keys) && keys.every(key => typeof key === "string");
    return new Map(Object.entries(found ?? {}).filter(isRow));
  } catch {
    return new Map();
  }
}

// Whether a row may have another key: not one of digits or arrow keys, which are many, nor the space bar, which is held.
export const isChangeable = keys => keys.length < 4 && !keys.some(key => /arrow|space|escape|enter/.test(key));

export class OwnKeys {
  constructor() {
    this.rows = read();
  }

  get isAny() {
    return this.rows.size > 0;
  }

  // Whether a key is one of these.
  has(key) {
    return [...this.rows.values()].some(keys => keys.includes(key));
  }

  // A table with its own keys.
  of(rows) {
    return rows.map(([keys, text, call]) => [this.rows.get(text) ?? keys, text, call]);
  }

  // Gives a row one key, which is taken from the others that have it.
  give(text, key, all) {
    for (const [keys, other] of all) if (other !== text && keys.includes(key)) this.rows.set(other, keys.filter(each => each !== key));
    this.rows.set(text, [key]);
    this.keep();
  }

  forget() {
    this.rows.clear();
    this.keep();
  }

  keep() {
    try {
      localStorage.setItem(KEPT, JSON.stringify(Object.fromEntries(this.rows)));
    } catch (fault) {
      console.warn("own keys are not kept", fault);
    }
  }
}
