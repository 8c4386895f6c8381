// SPDX-License-Identifier: MIT OR Apache-2.0
// Whole objects, as copies have them.

const isRecord = value => typeof value === "object" && value !== null;

// Whether a value is a number that is not whole, or has one in it.
export function hasFraction(value) {
  if (typeof value === "number") return !Number.isSafeInteger(value);
  return isRecord(value) && Object.values(value).some(hasFraction);
}

// The members of a copy of an object, from those that the map has: all but its id.
export const copyOf = ({ id, ...others }) => others;
