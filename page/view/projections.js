// SPDX-License-Identifier: MIT OR Apache-2.0
// Where the cells of a map stand in its picture, as Tiled draws them: orthogonal, isometric, staggered and hexagonal maps. Lengths are
// pixels of the map; a tile stands on the lower left corner of its cell's box.
//
//   width, height             the size of the whole picture
//   corner(x, y)              the upper left corner of a cell's box
//   shape(x, y)               the corners of a cell
//   cellAt(left, top)         the cell at a place
//   boxOf([x0, y0, x1, y1])   the box of cells, with the first ones and without the last ones: [left, top, right, bottom]
//   cellsIn(box)              the cells that may touch a box: [x0, y0, x1, y1], also outside of the map
//   walk(cells, box, call)    calls with each of the cells that may touch the box, in the order in which they are drawn
//   place(x, y)               where a point stands that an object names, and `named` the other way round
//   matrix                    how the lengths of an object lie in the picture
//   side                      how wide and high a cell is, as objects count
//   objectBox(cells)          the box of an object over cells: [x, y, width, height]

const boxAround = points => {
  const [across, down] = [points.map(([x]) => x), points.map(([, y]) => y)];
  return [Math.min(...across), Math.min(...down), Math.max(...across), Math.max(...down)];
};

const PLAIN = [1, 0, 0, 1];

// The box of an object that lies over cells, where objects count as the picture does.
function boxOver(projection, cells) {
  const [left, top, right, bottom] = projection.boxOf(cells).map(Math.round);
  return [left, top, right - left, bottom - top];
}

// What maps share whose objects count as the picture does: all but isometric ones. `aside` is how far they stand from where they are named: on an
// infinite map they count from cell 0, 0 of its plane.
class InPixels {
  aside = [0, 0];

  place(x, y) {
    return [x + this.aside[0], y + this.aside[1]];
  }

  named(left, top) {
    return [left - this.aside[0], top - this.aside[1]];
  }

  objectBox(cells) {
    const [left, top, width, height] = boxOver(this, cells);
    return [...this.named(left, top), width, height];
  }
}

class Orthogonal extends InPixels {
  constructor(map) {
    super();
    this.side = [map.tileWidth, map.tileHeight];
    Object.assign(this, { tileWidth: map.tileWidth, tileHeight: map.tileHeight, order: map.data.renderorder ?? "right-down" });
    Object.assign(this, { width: map.width * map.tileWidth, height: map.height * map.tileHeight, isPlain: true, matrix: PLAIN });
  }

  corner(x, y) {
    return [x * this.tileWidth, y * this.tileHeight];
  }

  shape(x, y) {
    const [left, top, right, bottom] = this.boxOf([x, y, x + 1, y + 1]);
    return [[left, top], [right, top], [right, bottom], [left, bottom]];
  }

  cellAt(left, top) {
    return [Math.floor(left / this.tileWidth), Math.floor(top / this.tileHeight)];
  }

  boxOf([x0, y0, x1, y1]) {
    return [...this.corner(x0, y0), ...this.corner(x1, y1)];
  }

  cellsIn([left, top, right, bottom]) {
    return [...this.cellAt(left, top), Math.ceil(right / this.tileWidth), Math.ceil(bottom / this.tileHeight)];
  }

  walk([x0, y0, x1, y1], box, call) {
    const [isLeft, isUp] = [this.order.startsWith("left"), this.order.endsWith("up")];
    for (let row = y0; row < y1; row++) {
      const y = isUp ? y0 + y1 - 1 - row : row;
      for (let column = x0; column < x1; column++) call(isLeft ? x0 + x1 - 1 - column : column, y);
    }
  }
}

class Isometric {
  constructor(map) {
    const { width, height, tileWidth, tileHeight } = map;
    Object.assign(this, { tileWidth, tileHeight, from: height * tileWidth / 2, isPlain: false, isIsometric: true });
    Object.assign(this, { width: (width + height) * tileWidth / 2, height: (width + height) * tileHeight / 2 });
    this.side = [tileHeight, tileHeight];
    this.matrix = [tileWidth / 2 / tileHeight, 1 / 2, -tileWidth / 2 / tileHeight, 1 / 2];
    // How far objects stand from where they are named, as they count: on an infinite map they count from cell 0, 0 of its plane.
    const { corner, moved } = map.plane;
    this.aside = [moved[0] - corner[0] * tileHeight, moved[1] - corner[1] * tileHeight];
  }

  // Where a point of the map stands that is named in cells.
  point(x, y) {
    return [(x - y) * this.tileWidth / 2 + this.from, (x + y) * this.tileHeight / 2];
  }

  corner(x, y) {
    const [middle, top] = this.point(x, y);
    return [middle - this.tileWidth / 2, top];
  }

  shape(x, y) {
    return [this.point(x, y), this.point(x + 1, y), this.point(x + 1, y + 1), this.point(x, y + 1)];
  }

  inCells(left, top) {
    const [across, down] = [(left - this.from) / this.tileWidth, top / this.tileHeight];
    return [down + across, down - across];
  }

  cellAt(left, top) {
    return this.inCells(left, top).map(Math.floor);
  }

  boxOf([x0, y0, x1, y1]) {
    return boxAround([this.point(x0, y0), this.point(x1, y0), this.point(x0, y1), this.point(x1, y1)]);
  }

  cellsIn([left, top, right, bottom]) {
    const [x0, y0, x1, y1] = boxAround([[left, top], [right, top], [left, bottom], [right, bottom]].map(corner => this.inCells(...corner)));
    return [Math.floor(x0), Math.floor(y0), Math.floor(x1) + 1, Math.floor(y1) + 1];
  }

  // From the top down, and in each row of the screen to the right.
  walk([x0, y0, x1, y1], [left, top, right, bottom], call) {
    const [half, tall] = [this.tileWidth / 2, this.tileHeight / 2];
    const lowest = Math.max(x0 + y0, Math.floor(top / tall) - 2);
    const last = Math.min(x1 + y1 - 2, Math.ceil(bottom / tall));
    for (let sum = lowest; sum <= last; sum++) {
      const first = Math.max(x0, sum - y1 + 1, Math.ceil(((left - this.from) / half + sum - 1) / 2));
      const end = Math.min(x1 - 1, sum - y0, Math.floor(((right - this.from) / half + sum + 1) / 2));
      for (let x = first; x <= end; x++) call(x, sum - x);
    }
  }

  // Objects count in pixels of which a cell has as many each way as it is high.
  place(x, y) {
    return this.point((x + this.aside[0]) / this.tileHeight, (y + this.aside[1]) / this.tileHeight);
  }

  named(left, top) {
    return this.inCells(left, top).map((cells, at) => cells * this.tileHeight - this.aside[at]);
  }

  objectBox([x0, y0, x1, y1]) {
    const [left, top, width, height] = [x0, y0, x1 - x0, y1 - y0].map(cells => cells * this.tileHeight);
    return [left - this.aside[0], top - this.aside[1], width, height];
  }
}

// Staggered and hexagonal maps: every other row or column is moved by half a cell.
class Staggered extends InPixels {
  constructor(map) {
    super();
    const { data, width, height } = map;
    const even = length => length - length % 2;
    const [tileWidth, tileHeight] = [even(map.tileWidth), even(map.tileHeight)];
    const side = data.orientation === "hexagonal" ? data.hexsidelength ?? 0 : 0;
    const byColumns = data.staggeraxis === "x";
    const [sideX, sideY] = byColumns ? [side, 0] : [0, side];
    Object.assign(this, { tileWidth, tileHeight, sideX, sideY, byColumns, isHexagonal: data.orientation === "hexagonal" });
    Object.assign(this, { isPlain: false, matrix: PLAIN });
    this.side = [tileWidth, tileHeight];
    this.parity = data.staggerindex === "even" ? 0 : 1;
    // How far the slanted edges reach, and how far a moved row or column is from the one before it.
    Object.assign(this, { slantX: Math.floor((tileWidth - sideX) / 2), slantY: Math.floor((tileHeight - sideY) / 2) });
    Object.assign(this, { stepX: this.slantX + sideX, stepY: this.slantY + sideY });
    this.width = byColumns ? width * this.stepX + this.slantX : width * (tileWidth + sideX) + (height > 1 ? this.stepX : 0);
    this.height = byColumns ? height * (tileHeight + sideY) + (width > 1 ? this.stepY : 0) : height * this.stepY + this.slantY;
    const { corner, moved } = map.plane;
    this.aside = [moved[0] - corner[0] * this.steps[0], moved[1] - corner[1] * this.steps[1]];
  }

  // How far a column is from the one before it, and a row.
  get steps() {
    return this.byColumns ? [this.stepX, this.tileHeight + this.sideY] : [this.tileWidth + this.sideX, this.stepY];
  }

  isMoved(at) {
    return (at & 1) === this.parity;
  }

  corner(x, y) {
    if (this.byColumns) return [x * this.stepX, y * (this.tileHeight + this.sideY) + (this.isMoved(x) ? this.stepY : 0)];
    return [x * (this.tileWidth + this.sideX) + (this.isMoved(y) ? this.stepX : 0), y * this.stepY];
  }

  shape(x, y) {
    const [left, top] = this.corner(x, y);
    const { tileWidth, tileHeight, slantX, slantY, sideX, sideY } = this;
    const [right, bottom] = [left + tileWidth, top + tileHeight];
    const points = [[left, top + slantY], [left + slantX, top], [left + slantX + sideX, top], [right, top + slantY],
      [right, top + slantY + sideY], [left + slantX + sideX, bottom], [left + slantX, bottom], [left, top + slantY + sideY]];
    return points.filter(([across, down], at) => at === 0 || across !== points[at - 1][0] || down !== points[at - 1][1]);
  }

  // The cell whose middle is nearest: along the slanted edges where the cells are diamonds.
  cellAt(left, top) {
    const [x0, y0] = this.cellsIn([left, top, left, top]);
    let [best, least] = [[x0, y0], Infinity];
    for (let at = 0; at < 25; at++) {
      const [x, y] = [x0 + at % 5, y0 + Math.floor(at / 5)];
      const [toLeft, toTop] = this.corner(x, y);
      const [across, down] = [Math.abs(left - toLeft - this.tileWidth / 2), Math.abs(top - toTop - this.tileHeight / 2)];
      const distance = this.isHexagonal ? Math.hypot(across, down) : across / this.tileWidth + down / this.tileHeight;
      if (distance < least) [best, least] = [[x, y], distance];
    }
    return best;
  }

  boxOf([x0, y0, x1, y1]) {
    const [wide, high] = this.steps;
    const [left, top] = [x0 * wide, y0 * high];
    const [right, bottom] = this.corner(x1 - 1, y1 - 1);
    const [moreX, moreY] = this.byColumns ? [0, this.stepY] : [this.stepX, 0];
    return [left, top, right + this.tileWidth + moreX, bottom + this.tileHeight + moreY];
  }

  cellsIn([left, top, right, bottom]) {
    const [wide, high] = this.steps;
    return [Math.floor(left / wide) - 2, Math.floor(top / high) - 2, Math.floor(right / wide) + 2, Math.floor(bottom / high) + 2];
  }

  walk([x0, y0, x1, y1], box, call) {
    for (let y = y0; y < y1; y++) {
      for (const isMoved of this.byColumns ? [false, true] : [null]) this.walkRow(x0, x1, y, isMoved, call);
    }
  }

  // A row of cells: all, or those of its columns that are moved, or the others.
  walkRow(x0, x1, y, isMoved, call) {
    for (let x = x0; x < x1; x++) if (isMoved === null || this.isMoved(x) === isMoved) call(x, y);
  }
}

export function projectionOf(map) {
  const kinds = { isometric: Isometric, staggered: Staggered, hexagonal: Staggered };
  return new (kinds[map.data.orientation] ?? Orthogonal)(map);
}
