// SPDX-License-Identifier: MIT OR Apache-2.0
// An infinite map grows under the hand, by whole chunks at each side, in one step with what is drawn there.
import { grouped } from "../files/image_files.js";
import { MAX_CELLS, MAX_SIDE } from "../../js/limits.js";

// The most cells of all tile layers of an infinite map together: with more of them its file could not be opened again.
const MOST_OF_LAYERS = 16_777_216;

const unitOf = side => (side % 2 ? 2 * side : side);
const down = (number, unit) => Math.floor(number / unit) * unit;
const up = (number, unit) => Math.ceil(number / unit) * unit;

// How many columns or rows come before a map and behind it, so that it has those from one place up to another: whole chunks, and as many
// that a staggered map keeps its stagger, as its corner is even. `corner` is the place of the map on the plane.
function along(from, to, length, corner, chunk) {
  const before = from < 0 ? corner - down(corner + from, unitOf(chunk)) : 0;
  const behind = to > length ? up(corner + to, chunk) - corner - length : 0;
  return [before, behind];
}

// What an infinite map gets at its sides, so that it has a rectangle of cells: { left, top, right, bottom }.
export function sidesFor(map, chunks, [x, y, width, height]) {
  const [left, right] = along(x, x + width, map.width, chunks.x, chunks.width);
  const [top, bottom] = along(y, y + height, map.height, chunks.y, chunks.height);
  return { left, top, right, bottom };
}

// Why a map cannot get that at its sides; "" where it can.
export function whyNotGrown(map, { left, top, right, bottom }) {
  const [width, height] = [map.width + left + right, map.height + top + bottom];
  const count = map.layers.filter(each => each.isTiles).length;
  if (width > MAX_SIDE || height > MAX_SIDE) return `The map cannot grow there: it has at most ${grouped(MAX_SIDE)} columns and as many rows.`;
  if (width * height > MAX_CELLS) return `The map cannot grow there: it has at most ${grouped(MAX_CELLS)} cells, and has ${map.width} × ${map.height}.`;
  if (width * height * count <= MOST_OF_LAYERS) return "";
  return `The map cannot grow there: all its tile layers together have at most ${grouped(MOST_OF_LAYERS)} cells.`;
}

export class MapGrowth {
  constructor(bench) {
    // Whether a macro is open that has a growth and what is drawn there; and of each document whether its map is infinite, which no edit changes.
    Object.assign(this, { bench, editor: bench.editor, isOpen: false, known: new WeakMap() });
  }

  // Whether the active map is infinite.
  get isInfinite() {
    const { known, bench: { map }, editor: { openDocuments: { document } } } = this;
    if (!map || !document) return false;
    if (!known.has(document)) known.set(document, this.editor.chunks() !== null);
    return known.get(document);
  }

  // Whether it grows where tiles are drawn outside of it.
  get grows() {
    return this.isInfinite && !this.bench.map.selected;
  }

  // Has an infinite map grow so that it has a rectangle of cells. `stroke` is the stroke that goes on there: what it has drawn becomes a part of
  // the same step. Gives { moved, why }: by how many columns and rows all has moved, [0, 0] of a map that does not grow, and why it cannot.
  reach(box, stroke = null) {
    const { map } = this.bench;
    const isInside = box[0] >= 0 && box[1] >= 0 && box[0] + box[2] <= map.width && box[1] + box[3] <= map.height;
    const chunks = isInside || !this.grows ? null : this.editor.chunks();
    if (!chunks) return { moved: [0, 0], why: "" };
    const sides = sidesFor(map, chunks, box);
    const why = whyNotGrown(map, sides);
    return why ? { moved: [0, 0], why } : this.grow(sides, stroke);
  }

  // All stays where it is on the plane: `extend` sees to that.
  grow({ left, top, right, bottom }, stroke) {
    const lines = [...this.opening(stroke), `extend ${left} ${top} ${right} ${bottom}`];
    const done = this.bench.sayRefusal(this.editor.doLines(lines, { stroke }));
    return done.isAccepted ? { moved: [left, top], why: "" } : { moved: [0, 0], why: this.bench.bubble.words };
  }

  // The lines that open a macro, with the step of the stroke in it; none where one is open.
  opening(stroke) {
    const { document } = this.editor.openDocuments;
    const { index, depth } = this.editor.stand();
    if (depth) return [];
    this.isOpen = true;
    this.document = document;
    const made = stroke?.hasStep ? document.steps.linesOf(index - 1, index)?.[0] ?? null : null;
    return [...(made ? ["undo"] : []), "begin Stamp || stamp tiles", ...(made ?? [])];
  }

  // Ends the macro, where one is open; `isTaken` takes it back, too.
  end(isTaken = false) {
    if (!this.isOpen) return false;
    this.isOpen = false;
    const { name } = this.document;
    const { active } = this.editor.openDocuments;
    if (!this.editor.openDocuments.isOpen(this.document)) return false;
    if (active !== name) this.editor.doLines([`use ${name}`]);
    if (this.editor.stand().depth) this.editor.doLines(isTaken ? ["end", "undo"] : ["end"]);
    if (active !== name) this.editor.doLines([`use ${active ?? "-"}`]);
    return true;
  }
}
