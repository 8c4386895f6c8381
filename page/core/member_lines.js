// SPDX-License-Identifier: MIT OR Apache-2.0
// The lines that say values as JSON: those that add an object, that set own members of an object, a layer, a tileset or the map, and that
// remove a property of any name.
import { MAX_LINE } from "../../js/limits.js";
import { said } from "../../js/json_values.js";
import { isKey } from "../../js/words.js";

// The line that gives a member a value. `owner` is its owner as lines spell it. One that follows joins the step before it.
export const memberLine = (owner, member, value, follows = false) => `member set${follows ? "+" : ""} ${owner} ${member} ${said(value, member)}`;

// The line that gives several members their values.
export const membersLine = (owner, members) => `member put ${owner} ${said(members, "members")}`;

// The line that takes a member out.
export const memberRemoval = (owner, member) => `member remove ${owner} ${member}`;

// The line that gives a layer another name, which may be empty.
export const renameLine = ({ id }, name) => (name === "" ? memberLine(`layer:${id}`, "name", "") : `layer rename ${id} ${name}`);

// The line that removes a property.
export const removalLine = (owner, name) => (isKey(name) ? `prop remove ${owner} ${name}` : `prop take ${owner} ${said(name, "a name")}`);

// The line that adds an object to a layer, as a file has it.
export const objectLine = (layer, members) => `object put ${layer} ${said(members, "an object")}`;

// How many bytes of a line are more than it may have; 0 where none are.
export const bytesTooMany = line => Math.max(0, new TextEncoder().encode(line).length - MAX_LINE);
