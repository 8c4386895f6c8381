// SPDX-License-Identifier: MIT OR Apache-2.0
// What was copied last: tiles, or objects.

export class Clipboard {
  constructor(bench) {
    Object.assign(this, { bench, tiles: null, object: null });
  }

  // Keeps tiles, as a copy (see tile_numbers.js).
  keepTiles(tiles) {
    Object.assign(this, { tiles, object: null });
  }

  // Keeps the members of copies of objects of the active map, with their layers: with their tiles, as a copy of tiles, and with the folder of
  // that map.
  keepObjects(members, layers) {
    const { numbers } = this.bench.carried;
    const tiles = numbers.copyOf({ width: members.length, height: 1, values: members.map(({ gid = 0 }) => gid) });
    this.tiles = null;
    this.object = { ...tiles, all: members.map((each, at) => ({ members: structuredClone(each), layer: layers[at].id })), folder: this.bench.editor.folder };
  }

  // Does what copies something. Where that is refused, which it says, what was copied before is dropped: it would be pasted in its place.
  during(copy) {
    const { tiles, object, bench } = this;
    bench.bubble.hide();
    copy();
    if ((!tiles && !object) || tiles !== this.tiles || object !== this.object) return;
    this.tiles = this.object = null;
    bench.sayMore("Nothing is copied any more.");
  }
}
