// SPDX-License-Identifier: MIT OR Apache-2.0
// Files of a folder that stand elsewhere in it than maps say, as the user has found them: they are read from there. The window keeps that.
const STORED = "roskevad found files";

function stored() {
  try {
    return new Map(JSON.parse(sessionStorage.getItem(STORED) ?? "[]"));
  } catch {
    return new Map();
  }
}

export class FoundFiles {
  // `place` tells one file from all others.
  constructor(place) {
    Object.assign(this, { place, all: stored() });
  }

  // Where a file is read that maps name by a path.
  pathOf(path) {
    return this.all.get(this.place.fileOf(path)) ?? path;
  }

  take(path, found) {
    this.all.set(this.place.fileOf(path), found);
    sessionStorage.setItem(STORED, JSON.stringify([...this.all]));
  }
}
