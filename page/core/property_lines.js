// SPDX-License-Identifier: MIT OR Apache-2.0
// Properties of any name and type: the line that sets one, the texts that fields have of its values, and members of a class.
import { said } from "../../js/json_values.js";
import { isKey, plainSetting } from "../../js/words.js";

const isRecord = value => value !== null && typeof value === "object" && !Array.isArray(value);

// The line that sets a property as a file has it: `prop set` where this can say it, which leaves what else is there of it; one that is set
// anew as a whole leaves nothing of what was there.
export function settingLine(owner, members, isWhole = false) {
  const { name, type, value } = members;
  const plain = isKey(name) && !isWhole ? plainSetting(value, type) : null;
  return plain === null ? `prop put ${owner} ${said(members, "a property")}` : `prop set ${owner} ${name} ${plain}`;
}

const SPOKEN = { int: Number, float: Number, object: Number, bool: text => text === "true" };

// The value of a type for the text of a field, and the text of a value.
export const valueFrom = (type, text) => (SPOKEN[type] ?? String)(text);
export const textFrom = value => String(value).replace(/\r\n?/g, "\n");

// What stands in a class: each member with the names that lead to it, from the outermost one on.
export function membersIn(value, path = []) {
  if (!isRecord(value)) return [{ path, value }];
  const inner = Object.entries(value).flatMap(([name, each]) => membersIn(each, [...path, name]));
  return path.length && !inner.length ? [{ path, value }] : inner;
}

// The member of a class; undefined where it has none.
export const memberAt = (value, path) => path.reduce((at, name) => (isRecord(at) && Object.hasOwn(at, name) ? at[name] : undefined), value);

// A class with another value of a member, or without it where that is undefined.
export function withMember(value, [name, ...path], made) {
  const own = isRecord(value) ? value : {};
  const inner = path.length ? withMember(own[name], path, made) : made;
  if (inner !== undefined) return { ...own, [name]: inner };
  return Object.fromEntries(Object.entries(own).filter(([each]) => each !== name));
}

// The type of a member of a class, by its value: what the class says of it is in Tiled's project. null where no field has such values.
export function typeOfMember(value) {
  if (typeof value === "number") return "float";
  if (typeof value === "boolean") return "bool";
  return typeof value === "string" ? "string" : null;
}
