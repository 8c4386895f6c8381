// SPDX-License-Identifier: MIT OR Apache-2.0
// Objects whose own names are those of what they show, as they are at each look.

/**
 * What has the calls of a Map, and can be looked at like a plain object besides: `Object.entries(thing)` and
 * `{ ...thing }` have what `keys` and `get` tell. Nothing of it is set, put or deleted as a value. A class over it keeps
 * what it needs in private fields, which the proxy has that is made here.
 */
export class WithOwnNames {
  constructor() {
    const looks = new Looks();
    looks.thing = new Proxy(this, looks);
    return looks.thing;
  }
}

// What a look at one such object gives. Its calls come first: `thing.size` is how many there are, also where one of
// them has that name.
class Looks {
  thing = null;
  // The name that a look has just found: its value is asked for next, as by `Object.entries`, and it is no call then.
  #found = null;

  ownKeys() {
    this.#found = null;
    return [...this.thing.keys()];
  }

  getOwnPropertyDescriptor(_, name) {
    this.#found = null;
    if (typeof name !== "string" || !this.thing.has(name)) {
      return undefined;
    }
    const value = this.thing.get(name);
    this.#found = name;
    return { value, writable: false, enumerable: true, configurable: true };
  }

  has(calls, name) {
    this.#found = null;
    return name in calls || (typeof name === "string" && this.thing.has(name));
  }

  get(calls, name, receiver) {
    const isFound = this.#found === name;
    this.#found = null;
    // A promise asks what it is kept with for `then`.
    const isCall = typeof name !== "string" || name in calls || name === "then";
    return isCall && !isFound ? Reflect.get(calls, name, receiver) : this.thing.get(name);
  }

  set(_, name) {
    throw new TypeError(`${String(name)} is not set as a value: set(${JSON.stringify(name)}, value) does`);
  }

  defineProperty(_, name) {
    return this.set(_, name);
  }

  deleteProperty(_, name) {
    throw new TypeError(`${String(name)} is not deleted as a value: delete(${JSON.stringify(name)}) does`);
  }

  preventExtensions() {
    return false;
  }
}
