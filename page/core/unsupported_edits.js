// SPDX-License-Identifier: MIT OR Apache-2.0
// What is changed in Tiled alone, of a property or of a name, in words.
import { TYPES } from "./kinds.js";
import { membersIn } from "./property_lines.js";
import { LONGEST_NAME } from "../files/members.js";

// Why a name or a class has no field, of which the page has no more than its first letters; "" where it has one.
export function whyNotNamed(text) {
  return text.length > LONGEST_NAME ? `It has more than ${LONGEST_NAME} letters: Tiled changes it.` : "";
}

// How many members of a class have fields.
const MOST_MEMBERS = 200;

// Why a property is not set here; "" where it is.
export function whyNotSet({ name, type = "string", value }) {
  if (name === "") return "It has no name: Tiled changes it.";
  if (name.length > LONGEST_NAME) return `Its name has more than ${LONGEST_NAME} letters: Tiled changes it.`;
  if (Array.isArray(value)) return "A list is set in Tiled.";
  const isClass = typeof value === "object" && value !== null;
  if (isClass !== (type === "class") || !Object.hasOwn(TYPES, type)) return `The type ${type} is set in Tiled.`;
  return isClass && membersIn(value).length > MOST_MEMBERS ? `A class of more than ${MOST_MEMBERS} members is set in Tiled.` : "";
}
