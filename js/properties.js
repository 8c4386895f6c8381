// SPDX-License-Identifier: MIT OR Apache-2.0
// The properties of a map, a layer or an object.
import { NotFound, OtherType } from "./faults.js";
import * as json from "./json_values.js";
import { OWNERS } from "./module.js";
import { WithOwnNames } from "./own_names.js";
import { withKeptNote } from "./tiled_maps.js";
import * as words from "./words.js";

const NAME = "the name of a property";
// The member that names the class or the enum of a property.
const CLASS = "propertytype";

/**
 * The properties of a map, a layer or an object, by their names, as a Map has them. A value that is set
 * keeps the type of the one that is there; the first value of a name has a type of its own: a string, an
 * int, a bool, a float for a fraction, an object for a MapObject, a class for a plain object, or a list.
 */
export class Properties extends WithOwnNames {
  #document;
  #thing;
  // What has them, in the words of lines and in the numbers of the library.
  #owner;
  #place;

  constructor(document, kind = "map", thing = null) {
    super();
    this.#document = document;
    this.#thing = thing;
    this.#owner = thing === null ? kind : `${kind}:${thing.id}`;
    this.#place = [OWNERS[kind], thing === null ? 0 : thing.id];
  }

  // All of them. Throws Refused where what has them was removed.
  get _all() {
    const listed = this.#document._read("properties", ...this.#place);
    if (listed === null) {
      throw this.#thing._missing();
    }
    return listed;
  }

  // The one of a name; null where there is none.
  _named(key) {
    if (!words.isWhole(key)) {
      return null;
    }
    return this.#document._readNamed(key, "property", ...this.#place);
  }

  // The same. Throws Refused where what has them was removed.
  _one(key) {
    return this._named(key) ?? (this._all, null);
  }

  /** The number of properties. */
  get size() {
    return this._all.length;
  }

  /** The value of the property of a name; undefined where there is none. */
  get(key) {
    return this._one(key)?.value;
  }

  /** Whether there is a property of a name. */
  has(key) {
    return this._one(key) !== null;
  }

  /** The names, in order. */
  keys() {
    return this._all.map((each) => each.name).values();
  }

  *[Symbol.iterator]() {
    for (const { name, value } of this._all) {
      yield [name, value];
    }
  }

  /** The type of the property of a name. Throws NotFound where there is none. */
  typeOf(key) {
    const members = this._one(key);
    if (members === null) {
      throw new NotFound(`${this.#owner} has no property ${words.quoted(key)}`);
    }
    return members.type ?? "string";
  }

  /**
   * Sets a property: of this type, or else of the type that is there, or else of the value's own.
   * `propertyType` names the class or the enum of Tiled's project, and "" takes that name away.
   */
  set(key, value, options) {
    const { type, merge, propertyType } = words.options(options, { type: null, merge: false, propertyType: null });
    const name = words.wholeText(json.text(key, NAME), NAME);
    const named = type === null ? null : words.oneOf(type, words.TYPES, "the type of a property");
    const className = propertyType === null ? null : json.text(propertyType, "the type of a property in a project");
    const setting = named === null
      ? this._settingFor(name, value)
      : { type: named, value: words.setting(name, value, named) };
    this.#document._edit(this._lineFor({ name, ...setting }, merge, className));
  }

  /** Sets a property as a file has it, of any name and type. One of its name that is there keeps its place. */
  put(members) {
    this.#document._edit(`prop put ${this.#owner} ${json.membersSaid(members, "the members of a property")}`);
  }

  // The type and the value where no type is named. Throws OtherType where the property has a type that does not take
  // the value.
  _settingFor(name, value) {
    const there = this._named(name);
    if (there === null) {
      const type = words.typeOf(name, value);
      return { type, value: words.setting(name, value, type) };
    }
    const type = there.type ?? "string";
    if (!words.TYPES.includes(type)) {
      const front = `the property ${words.quoted(name)} has the type ${type} in this map, which set(..) does not know`;
      throw new OtherType(`${front}: put(..) sets it as a file has it`);
    }
    try {
      return { type, value: words.setting(name, value, type) };
    } catch (fault) {
      if (fault instanceof RangeError && type !== "color") {
        throw fault;
      }
      throw new OtherType(`${fault.message}; set(.., .., { type }) gives it another type`);
    }
  }

  // The line that sets a property: `prop set` where that can say it, or else one that says all of it, with what else is
  // there of it.
  _lineFor(members, merge, className) {
    const { name, type, value } = members;
    const plain = className === null && words.isKey(name) ? words.plainSetting(value, type) : null;
    if (plain !== null) {
      return `prop set${merge ? "+" : ""} ${this.#owner} ${name} ${plain}`;
    }
    const there = this.#document._readNoted(name, "property", ...this.#place) ?? {};
    const whole = withKeptNote({ ...there, ...members, ...(className === null ? {} : { [CLASS]: className }) }, there);
    if (className === "") {
      delete whole[CLASS];
    }
    return `prop put ${this.#owner} ${json.said(whole, `the property ${words.quoted(name)}`)}`;
  }

  /** Removes the property of a name, whatever characters that has, and says whether there was one. */
  delete(key) {
    if (!this.has(key)) {
      return false;
    }
    const isKey = words.isKey(key);
    const name = isKey ? key : json.said(key, NAME);
    this.#document._edit(`prop ${isKey ? "remove" : "take"} ${this.#owner} ${name}`);
    return true;
  }

  /** What JSON has of them: an object with the value of each name. */
  toJSON() {
    return Object.fromEntries(this);
  }

  toString() {
    return `Properties of ${this.#owner}`;
  }

  [Symbol.for("nodejs.util.inspect.custom")]() {
    const listed = this.#document._peek(() => this._all) ?? [];
    return `<${this}: ${JSON.stringify(Object.fromEntries(listed.map((each) => [each.name, each.value])))}>`;
  }
}
