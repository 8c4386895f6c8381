// SPDX-License-Identifier: MIT OR Apache-2.0
// The own members of an object, a layer, a tileset or the map: what stands for it in the map's file, but for what other lines
// change. Each line of them is said here.
import { Refused, refusedCall } from "./faults.js";
import { membersSaid, said } from "./json_values.js";
import { inAFile } from "./new_objects.js";
import * as words from "./words.js";

const NAME = "the name of a member";
// The names that are none of own members, by what has them.
const OTHERS = {
  object: ["id", "properties", "roskevad"],
  layer: [
    "id", "type", "properties", "data", "chunks", "startx", "starty", "objects", "layers", "width", "height", "encoding",
    "compression", "roskevad",
  ],
  tileset: ["firstgid", "roskevad"],
  map: [
    "width", "height", "infinite", "chunks", "data", "objects", "layers", "tilesets", "properties", "type", "version",
    "roskevad",
  ],
};
const OF_OTHER_LINES = 41;
// What sets them, where something does.
const INSTEAD = new Map([
  ["properties", "properties are set and deleted one by one, in `properties`"],
  ["data", "cells are set by document.stamp(..) and layer.write(..)"],
  ["objects", "objects are added by layer.objects.add(..)"],
  ["layers", "layers are added by document.layers.add(..), and moved by layer.moveInto(..)"],
  ["tilesets", "tilesets are added by document.tilesets.add(..)"],
  ["width", "the size of a map is set by document.resize(..)"],
  ["height", "the size of a map is set by document.resize(..)"],
]);
// What stands there again where it is taken out.
const DEFAULTS = new Map([["layer", new Map([["name", ""], ["visible", true]])]]);

/** What has own members, an object, a layer, a tileset or the map: how lines and the library name it, and how it is read. */
export class Owner {
  #kind;
  #call;

  // `now` gives what the map says of it, and throws Refused where it was removed.
  constructor(document, kind, id, now) {
    this.document = document;
    this.name = id === null ? kind : `${kind}:${id}`;
    this.now = now;
    this.#kind = kind;
    this.#call = id === null ? ["map_head"] : [kind, id];
  }

  /** The names that are none of its own members. */
  get others() {
    return OTHERS[this.#kind];
  }

  /** What stands there again where it is taken out. */
  get defaults() {
    return DEFAULTS.get(this.#kind) ?? new Map();
  }

  /** What its members are now, by names, with which new values are compared; nothing where it was removed. */
  get held() {
    return new Map(Object.entries(this.document._read(...this.#call) ?? {}));
  }

  /** Members as a file has them: of an object also its corners, which may be pairs, and its text. */
  inAFile(members) {
    return this.#kind === "object" && words.isPlain(members) ? inAFile(members) : members;
  }

  /** What to do where one of these names is none of its own members. */
  instead(names) {
    const first = names.find((name) => this.others.includes(name));
    return first === undefined ? null : INSTEAD.get(first) ?? `${words.quoted(first)} stays as it is`;
  }

  /** Its own members, of what is told of it. */
  own(members) {
    return Object.fromEntries(Object.entries(members).filter(([name]) => !this.others.includes(name)));
  }
}

/** The calls of what has own members, whose `_owner` says which. */
export class WithOwnMembers {
  setMember(key, value, options) {
    const { merge } = words.options(options, { merge: false });
    setMember(this, key, value, merge);
  }

  setMembers(members, options) {
    const { merge } = words.options(options, { merge: false });
    putMembers(this, members, merge);
  }

  removeMember(key) {
    return removeMember(this, key);
  }
}

/** Sets an own member, or adds one. */
export function setMember({ _owner: owner }, key, value, merge = false) {
  const name = words.key(key, NAME);
  const text = said(owner.inAFile({ [name]: value })[name], `the member ${words.quoted(name)}`);
  say(owner, `set${merge ? "+" : ""} ${owner.name} ${name} ${text}`, [[name, JSON.parse(text)]]);
}

/** Sets some own members at once. */
export function putMembers({ _owner: owner }, members, merge = false) {
  const text = membersSaid(owner.inAFile(members), `the members of ${owner.name}`);
  say(owner, `put${merge ? "+" : ""} ${owner.name} ${text}`, Object.entries(JSON.parse(text)));
}

// Takes an own member out, where there is one; whether there was. A name that is none of own members is said, too: it is
// refused.
function removeMember({ _owner: owner }, key) {
  const { defaults } = owner;
  const isThere = Object.keys(owner.now()).includes(key) || owner.others.includes(key);
  if (isThere) {
    const changes = (held) => !defaults.has(key) || held.get(key) !== defaults.get(key);
    say(owner, `remove ${owner.name} ${words.key(key, NAME)}`, [[key]], changes);
  }
  return isThere;
}

/** Sets an own member, or takes it out where the value is null. */
export function setOrRemove(thing, key, value) {
  if (value === null) {
    removeMember(thing, key);
  } else {
    setMember(thing, key, value);
  }
}

// Says a line about members of these names, each with its new value. Where it changes nothing of what the editor holds, macros
// wait on for their first edit.
function say(owner, rest, news, changes = (held) => differ(held, news)) {
  const { document } = owner;
  document._enter();
  try {
    document._beginningIf(() => changes(owner.held), () => document._edit(`member ${rest}`));
  } catch (fault) {
    if (fault instanceof Refused && fault.code === OF_OTHER_LINES) {
      throw refusedCall(fault.code, fault.line, { why: owner.instead(news.map(([name]) => name)) });
    }
    throw fault;
  }
}

// Whether new values, with their names, are others than those that are there.
function differ(held, news) {
  return news.some(([name, value]) => sorted(value) !== sorted(held.get(name)));
}

// A value as a text that is the same for the same value.
function sorted(value) {
  const inOrder = (each) => Object.fromEntries(Object.entries(each).sort(([one], [other]) => (one < other ? -1 : 1)));
  return JSON.stringify(value, (_, each) => (words.isPlain(each) ? inOrder(each) : each));
}

/** Has settings of values throw that are set by a call, or by another name: which, for whoever sets them as a value. */
export function refuseSettings(kind, what, calls) {
  for (const [name, why] of Object.entries(calls)) {
    const set = () => {
      throw new TypeError(`${name} of ${what} is not set as a value: ${why}`);
    };
    const { get } = Object.getOwnPropertyDescriptor(kind.prototype, name);
    Object.defineProperty(kind.prototype, name, { get, set });
  }
}
