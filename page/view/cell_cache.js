// SPDX-License-Identifier: MIT OR Apache-2.0
// The cells of the tile layers in the part of the map that is seen, as they were drawn last.

// The least box that has both, of which one may not be there.
export function around(one, other) {
  if (!one || !other) return one ?? other;
  return [Math.min(one[0], other[0]), Math.min(one[1], other[1]), Math.max(one[2], other[2]), Math.max(one[3], other[3])];
}

export class CellCache {
  constructor() {
    this.map = null;
    this.box = [0, 0, 0, 0];
    this.layers = new Map();
  }

  // Shows another map; or the same one with another outline, which has other cells in some parts alone.
  takeMap(map, parts = null) {
    this.map = map;
    if (map && parts) this.refresh(parts);
    else this.forget();
  }

  forget() {
    this.layers.clear();
  }

  // Keeps to a part of the map, from x0, y0 to x1, y1: what it has of that stays.
  takeBox(box) {
    const old = this.box;
    if (box.every((edge, at) => edge === old[at])) return;
    this.box = box;
    for (const [id, cells] of this.layers) this.layers.set(id, this.moved(id, cells, old));
  }

  // The cells of a layer, row by row.
  cellsOf(id) {
    if (!this.layers.has(id)) this.layers.set(id, this.fetched(id, ...this.box));
    return this.layers.get(id);
  }

  fetched(id, x0, y0, x1, y1) {
    return x1 > x0 && y1 > y0 ? this.map.cells(id, x0, y0, x1 - x0, y1 - y0) : new Uint32Array(0);
  }

  // The cells of a layer in the present part, of which those in the old part are known.
  moved(id, cells, [oldX0, oldY0, oldX1, oldY1]) {
    const [x0, y0, x1, y1] = this.box;
    const [left, top, right, bottom] = [Math.max(x0, oldX0), Math.max(y0, oldY0), Math.min(x1, oldX1), Math.min(y1, oldY1)];
    if (left >= right || top >= bottom || x1 <= x0 || y1 <= y0) return this.fetched(id, x0, y0, x1, y1);
    const made = new Uint32Array((x1 - x0) * (y1 - y0));
    this.copy(made, cells, oldX0, oldY0, oldX1 - oldX0, [left, top, right, bottom]);
    for (const part of [[x0, y0, x1, top], [x0, bottom, x1, y1], [x0, top, left, bottom], [right, top, x1, bottom]]) {
      if (part[2] > part[0] && part[3] > part[1]) this.copy(made, this.fetched(id, ...part), part[0], part[1], part[2] - part[0], part);
    }
    return made;
  }

  // Copies a rectangle out of cells that begin at a place and have rows of a width.
  copy(to, from, fromX, fromY, fromWidth, [left, top, right, bottom]) {
    const [x0, y0, x1] = this.box;
    for (let y = top; y < bottom; y++) {
      const start = (y - fromY) * fromWidth + left - fromX;
      to.set(from.subarray(start, start + right - left), (y - y0) * (x1 - x0) + left - x0);
    }
  }

  // Keeps a value that the hand has drawn.
  put(id, x, y, value) {
    const [x0, y0, x1, y1] = this.box;
    if (x >= x0 && y >= y0 && x < x1 && y < y1 && this.layers.has(id)) this.layers.get(id)[(y - y0) * (x1 - x0) + x - x0] = value;
  }

  // Asks for the cells anew: of all layers, or of parts of some. Gives the rectangle of those that are others, [x0, y0, x1, y1] with its
  // last cells; null where none is.
  refresh(parts) {
    let found = null;
    if (parts) {
      for (const part of parts) found = around(found, this.refreshPart(part));
      return found;
    }
    for (const [id, old] of this.layers) {
      const cells = this.fetched(id, ...this.box);
      found = this.widened(found, old, cells);
      this.layers.set(id, cells);
    }
    return found;
  }

  refreshPart({ layer, box }) {
    const [x0, y0, x1, y1] = this.box;
    const [left, top, right, bottom] = [Math.max(x0, box[0]), Math.max(y0, box[1]), Math.min(x1, box[2]), Math.min(y1, box[3])];
    if (!this.layers.has(layer) || left >= right || top >= bottom) return null;
    this.copy(this.layers.get(layer), this.fetched(layer, left, top, right, bottom), left, top, right - left, [left, top, right, bottom]);
    return [left, top, right - 1, bottom - 1];
  }

  widened(found, old, cells) {
    const [x0, y0, x1, y1] = this.box;
    const width = x1 - x0;
    for (let row = 0; row < y1 - y0; row++) {
      const start = row * width;
      let first = 0;
      while (first < width && old[start + first] === cells[start + first]) first++;
      if (first === width) continue;
      let last = width - 1;
      while (old[start + last] === cells[start + last]) last--;
      found = around(found, [x0 + first, y0 + row, x0 + last, y0 + row]);
    }
    return found;
  }
}
