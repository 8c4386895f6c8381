// SPDX-License-Identifier: MIT OR Apache-2.0
// Where a map has the fault that it is refused for, as the library tells it.
import { NoMemory } from "./faults.js";

/** Whether a refusal is about a map that was read. */
export function isOfMap(code) {
  return code >= 60 && code < 70;
}

// What is told of the bytes of a file; null where there is no fault, or no memory to tell it.
function toldOf(module, bytes) {
  try {
    return module.mapFault(bytes);
  } catch (fault) {
    if (fault instanceof NoMemory) {
      return null;
    }
    throw fault;
  }
}

/** How the bytes of a file are refused, by the code for what was set aside of them: { code, why, placeInMap }. */
export function faultOfFile(module, code, bytes) {
  const told = toldOf(module, bytes);
  if (told === null || told.code !== code) {
    return { code, why: null, placeInMap: null };
  }
  const { path, exact, shown, text, line, column, why } = told;
  return { code, why, placeInMap: text === null ? null : { path, isExact: exact, shown, text, line, column } };
}
