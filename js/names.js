// SPDX-License-Identifier: MIT OR Apache-2.0
// The names of documents that a line can spell.
import { MAX_DOCUMENT_NAME } from "./limits.js";

/**
 * The name of the document as which a file may be opened: that of the file, without what follows its last
 * point. Each character that no line can spell becomes `_`; points and hyphens at the front are left out,
 * and so is what follows 64 characters. It is `map` where nothing is left.
 */
export function documentName(path) {
  const name = path.split("/").pop();
  const point = name.lastIndexOf(".");
  const stem = point > 0 && point < name.length - 1 ? name.slice(0, point) : name;
  const spelled = stem.replace(/[^A-Za-z0-9_.-]/gu, "_").replace(/^[.-]+/, "");
  return spelled.slice(0, MAX_DOCUMENT_NAME) || "map";
}
