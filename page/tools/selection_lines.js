// SPDX-License-Identifier: MIT OR Apache-2.0
// Lines that change cells whatever is selected: the selection is dropped before them, and is the same behind them.

// The runs of a selection, [row, first column, number of cells], in as few rectangles as those of one width below one another make.
function rectanglesOf(runs) {
  const [found, open] = [[], new Map()];
  for (const [row, column, count] of runs) {
    const key = `${column} ${count}`;
    const box = open.get(key);
    if (box && box[1] + box[3] === row) box[3]++;
    else {
      open.set(key, [column, row, count, 1]);
      found.push(open.get(key));
    }
  }
  return found;
}

// The lines that select what some runs have.
const linesFor = runs => rectanglesOf(runs).map((box, at) => `select ${at ? "add" : "replace"} ${box.join(" ")}`);

// Lines on a map as they change all cells that they name.
export const whateverIsSelected = (map, lines) => (map.runs.length ? ["select none", ...lines, ...linesFor(map.runs)] : lines);
