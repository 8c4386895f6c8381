// SPDX-License-Identifier: MIT OR Apache-2.0
// The selection of a document.

/**
 * The cells that were selected when it was asked for. Its iterator gives each cell [x, y] in row order;
 * `runs` has them as runs of cells of a row: row, column, length.
 */
export class Selection {
  constructor(runs) {
    this.runs = Object.freeze(
      runs.map(([row, column, length]) => Object.freeze({ row, column, length })),
    );
    Object.freeze(this);
  }

  /** The number of cells. */
  get size() {
    return this.runs.reduce((sum, run) => sum + run.length, 0);
  }

  /** Whether a cell is selected. */
  has(x, y) {
    let [low, high] = [0, this.runs.length];
    while (low < high) {
      const middle = (low + high) >> 1;
      const { row, column, length } = this.runs[middle];
      if (row < y || (row === y && column + length <= x)) {
        low = middle + 1;
      } else {
        high = middle;
      }
    }
    const run = this.runs[low];
    return run !== undefined && run.row === y && run.column <= x;
  }

  *[Symbol.iterator]() {
    for (const { row, column, length } of this.runs) {
      for (let x = column; x < column + length; x++) {
        yield [x, row];
      }
    }
  }

  toString() {
    return `Selection of ${this.size} cells`;
  }
}
