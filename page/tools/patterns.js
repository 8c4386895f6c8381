// SPDX-License-Identifier: MIT OR Apache-2.0
// A stamp that is repeated over cells, as one step: those of a rectangle, or those that a line `fill` would take.
import { Stroke } from "./stroke.js";

// The cells that `fill` takes at a cell: those of its value that are joined to it along rows and columns, and which the selection lets be
// changed. Gives their rectangle, how many they are, and which; null where it takes none.
export function joinedCells(map, layer, x, y) {
  const { width, height } = map;
  if (!map.isReached(x, y)) return null;
  const cells = map.cells(layer, 0, 0, width, height);
  const value = cells[y * width + x];
  const isFree = place => cells[place] === value && !taken[place] && (!map.selected || map.selected[place] === 1);
  const taken = new Uint8Array(width * height);
  const waiting = new Int32Array(width * height);
  let [left, count] = [0, 0];
  const box = { left: x, top: y, right: x, bottom: y };
  const take = place => {
    taken[place] = 1;
    waiting[left++] = place;
    count++;
  };
  take(y * width + x);
  while (left) {
    const place = waiting[--left];
    const row = Math.floor(place / width);
    const column = place - row * width;
    widen(box, column, row);
    if (column > 0 && isFree(place - 1)) take(place - 1);
    if (column + 1 < width && isFree(place + 1)) take(place + 1);
    if (row > 0 && isFree(place - width)) take(place - width);
    if (row + 1 < height && isFree(place + width)) take(place + width);
  }
  return { ...rectangleOf(box), count, isIn: (column, row) => map.isInside(column, row) && taken[row * width + column] === 1 };
}

function widen(box, x, y) {
  if (x < box.left) box.left = x;
  if (x > box.right) box.right = x;
  if (y < box.top) box.top = y;
  if (y > box.bottom) box.bottom = y;
}

const rectangleOf = box => ({ x: box.left, y: box.top, width: box.right - box.left + 1, height: box.bottom - box.top + 1 });

// The value that a stamp has at a cell that is not left of a cell or above it, where it is repeated from that one on.
export const patternFrom = (stamp, [left, top]) => (x, y) => stamp.values[(y - top) % stamp.height * stamp.width + (x - left) % stamp.width];

// A stamp repeated over cells, from a cell on, which is the upper left corner of their rectangle if none is named: a block, where 0 leaves
// its cell as it is.
export function patternOver(stamp, layer, { x, y, width, height, isIn = () => true }, from = [x, y]) {
  const values = new Array(width * height).fill(0);
  const valueAt = patternFrom(stamp, from);
  for (let at = 0; at < values.length; at++) {
    const [column, row] = [x + at % width, y + Math.floor(at / width)];
    if (isIn(column, row)) values[at] = valueAt(column, row);
  }
  return { layer, x, y, width, height, values };
}

// Draws a block of any size as one step, or as none where it changes nothing; gives whether it has changed something. `gesture` is what the
// hand did.
export function drawBlock(bench, block, gesture) {
  const runLine = line => bench.sayRefusal(bench.editor.doLines([line], { stroke, gesture })).told ?? null;
  const stroke = new Stroke(bench.map, () => block, runLine);
  const edits = stroke.put(block);
  bench.view.redrawCells(edits);
  return edits.length > 0;
}
