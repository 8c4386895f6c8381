// SPDX-License-Identifier: MIT OR Apache-2.0
// What lines have changed of the active map, as the editor has told of each: so no more than that is read and drawn anew.
import { around } from "../view/cell_cache.js";

// Of how many objects each is read alone, at most: where more change, the whole outline is.
const MOST_ALONE = 64;

export class Changes {
  // Where `isAll`, all may be otherwise.
  constructor(isAll = false) {
    // Where not all of the outline may: the ids of objects that have come, gone or changed, those of layers of which their own members
    // have, and whether the map's own have.
    Object.assign(this, { hasOutline: isAll, hasSelection: isAll, objects: new Set(), layers: new Set(), hasOwn: false });
    // Whether any cell may be another one; else by their layers the boxes in which they may, [x0, y0, x1, y1].
    Object.assign(this, { hasAllCells: isAll, boxes: new Map() });
    // By how many columns and rows all in the map has moved.
    this.shift = [0, 0];
  }

  // All in the map has moved, too.
  move([right, down]) {
    this.shift = [this.shift[0] + right, this.shift[1] + down];
  }

  // Takes what a line did. The cells of a line of a stroke are drawn already.
  take({ outline, subject, selection, cells }, isDrawn = false) {
    this.hasSelection ||= selection;
    if (outline) this.takeOutline(subject, cells === "all");
    if (cells === "all") this.hasAllCells = true;
    else if (cells && !isDrawn) this.takeCells(cells);
  }

  // Where all cells may be otherwise, layers have come, gone or moved, or the map has another size.
  takeOutline(subject, hasAllCells) {
    if (subject?.kind === "object") this.objects.add(subject.id);
    else if (subject?.kind === "layer" && !hasAllCells) this.layers.add(subject.id);
    else if (subject?.kind === "map" && !hasAllCells) this.hasOwn = true;
    else this.hasOutline = true;
    this.hasOutline ||= this.objects.size > MOST_ALONE;
  }

  // Whether own members have changed, of layers or of the map.
  get hasMembers() {
    return this.hasOwn || this.layers.size > 0;
  }

  takeCells({ layer, x, y, width, height }) {
    this.boxes.set(layer, around(this.boxes.get(layer), [x, y, x + width, y + height]));
  }

  get hasCells() {
    return this.hasAllCells || this.boxes.size > 0;
  }

  // The parts of the map in which alone cells may be others, each { layer, box }; null where any may.
  get parts() {
    return this.hasAllCells ? null : [...this.boxes].map(([layer, box]) => ({ layer, box }));
  }
}
