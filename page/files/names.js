// SPDX-License-Identifier: MIT OR Apache-2.0
// The names of documents and of files: those that a session line can spell, and the own names of files, which may be any path.
import { documentName } from "../../js/roskevad.js";

const SPELLED_FILE = /^[A-Za-z0-9_][A-Za-z0-9_.-]{0,99}$/;
const LONGEST_DOCUMENT = 64;

// The last part of a path.
export const lastOf = path => path.slice(path.lastIndexOf("/") + 1);

// The folder that a path stands in, with its slash; "" where it stands in none.
export const folderOf = path => path.slice(0, path.lastIndexOf("/") + 1);

// A path without `.`, and with `..` at its beginning alone, where it leads out of the top.
export function plainPath(path) {
  const parts = [];
  for (const part of path.split("/")) {
    if (part === ".." && parts.length && parts[parts.length - 1] !== "..") parts.pop();
    else if (part !== "." && part !== "") parts.push(part);
  }
  return parts.join("/");
}

// A path from a folder, where `.` and `..` are gone; null where it leads out of the top.
export function joined(folder, path) {
  const made = plainPath(folder + path);
  return made.split("/")[0] === ".." ? null : made;
}

// The path that leads from a folder, with its slash or "", to a path beside it.
export function pathFrom(folder, path) {
  const [from, to] = [folder.split("/").slice(0, -1), path.split("/")];
  let shared = 0;
  while (shared < from.length && shared < to.length - 1 && from[shared] === to[shared]) shared++;
  return [...from.slice(shared).map(() => ".."), ...to.slice(shared)].join("/");
}

// A name that is not taken: with a number behind it where it must be.
export function freeName(name, isTaken) {
  for (let number = 1; ; number++) {
    const suffix = number === 1 ? "" : `-${number}`;
    const made = name.slice(0, LONGEST_DOCUMENT - suffix.length) + suffix;
    if (!isTaken(made)) return made;
  }
}

// Which word of a line stands for which file: a path that a line can spell stands for itself, any other one for a word that is made.
export class FileNames {
  constructor() {
    this.paths = new Map();
  }

  // The path that a word of a line stands for.
  pathOf(word) {
    return this.paths.get(word) ?? word;
  }

  // The word for a path. `isThere` tells whether a file has a name already: such a name is made for no other one.
  wordOf(path, isThere) {
    if (SPELLED_FILE.test(path) && !this.paths.has(path)) return path;
    for (const [word, known] of this.paths) if (known === path) return word;
    const name = freeName(documentName(path), made => this.paths.has(`${made}.tmj`) || isThere(`${made}.tmj`));
    this.take(`${name}.tmj`, path);
    return `${name}.tmj`;
  }

  take(word, path) {
    if (word !== path) this.paths.set(word, path);
  }
}
