// SPDX-License-Identifier: MIT OR Apache-2.0
// Draws over the cells of a map: the grid and the selection.

// How far aside of a box of the screen cells are looked at: an edge of theirs may be in it.
const NEAR = 2;
// Below these widths of a cell there is no grid, and the selection has no outline.
const SMALLEST_GRID = 6;
export const SMALLEST_OUTLINE = 4;
// How many cells that are no rectangles are outlined one by one.
export const MOST_SHAPES = 20_000;

export class CellOverlay {
  constructor(view, pen) {
    Object.assign(this, { view, pen });
  }

  get isPlain() {
    return this.view.map.projection.isPlain;
  }

  // A box of the screen on the map, with what is near.
  onMap([left, top, right, bottom]) {
    return this.view.boxOnMap([left - NEAR, top - NEAR, right + NEAR, bottom + NEAR]);
  }

  // The cells that are seen in a box of the screen: [x0, y0, x1, y1].
  seenIn(box) {
    const { map } = this.view;
    const [x0, y0, x1, y1] = map.projection.cellsIn(this.onMap(box));
    return [Math.max(0, x0), Math.max(0, y0), Math.min(map.width, x1), Math.min(map.height, y1)];
  }

  isSeenFrom(least) {
    return this.view.map.tileWidth * this.view.scale >= least;
  }

  // The upper left corner of a cell of an orthogonal map.
  corner(x, y) {
    const { map } = this.view;
    return [this.view.screenX(x * map.tileWidth), this.view.screenY(y * map.tileHeight)];
  }

  // Calls with each cell that is seen in a box, where few are seen at all.
  eachSeenIn(box, call) {
    const { map, canvas } = this.view;
    const isMany = (canvas.width / map.tileWidth / this.view.scale) * (canvas.height / map.tileHeight / this.view.scale) > MOST_SHAPES;
    if (!isMany) map.projection.walk(this.seenIn(box), this.onMap(box), call);
  }

  line(x0, y0, x1, y1) {
    this.pen.moveTo(x0 + 0.5, y0 + 0.5);
    this.pen.lineTo(x1 + 0.5, y1 + 0.5);
  }

  // Adds the shape of a cell to the path of a pen.
  addShape(pen, x, y) {
    this.view.shapeOf(x, y).forEach(([left, top], at) => (at ? pen.lineTo(left + 0.5, top + 0.5) : pen.moveTo(left + 0.5, top + 0.5)));
    pen.closePath();
  }

  // ---- the grid, as far as it is in a box
  drawGrid(box) {
    const { pen, view } = this;
    pen.strokeStyle = "#0003";
    pen.lineWidth = 1;
    pen.beginPath();
    if (this.isSeenFrom(SMALLEST_GRID)) {
      if (this.isPlain) this.addLines(box);
      else this.eachSeenIn(box, (x, y) => this.addShape(pen, x, y));
    }
    pen.stroke();
    this.drawEdge(view.map);
  }

  addLines(box) {
    const [x0, y0, x1, y1] = this.seenIn(box);
    const [[left, top], [right, bottom]] = [this.corner(x0, y0), this.corner(x1, y1)];
    for (let x = x0; x <= x1; x++) this.line(this.corner(x, 0)[0], top, this.corner(x, 0)[0], bottom);
    for (let y = y0; y <= y1; y++) this.line(left, this.corner(0, y)[1], right, this.corner(0, y)[1]);
  }

  // The edge of the whole map.
  drawEdge({ projection, width, height }) {
    const { pen, view } = this;
    pen.strokeStyle = "#000a";
    pen.beginPath();
    if (projection.isIsometric) {
      const corners = [[0, 0], [width, 0], [width, height], [0, height]].map(([x, y]) => projection.point(x, y));
      for (const [left, top] of corners) pen.lineTo(view.screenX(left), view.screenY(top));
      pen.closePath();
    } else {
      const [left, top] = [view.screenX(0), view.screenY(0)];
      pen.rect(left - 0.5, top - 0.5, view.screenX(projection.width) - left + 1, view.screenY(projection.height) - top + 1);
    }
    pen.stroke();
  }

  // ---- the selection, as far as it is in a box
  drawSelection(box) {
    const { pen, view } = this;
    if (!view.map.selected) return;
    pen.fillStyle = "#4aa3ff55";
    pen.strokeStyle = "#8cc8ff";
    pen.lineWidth = 1;
    if (this.isPlain) this.drawRuns(box);
    else this.drawShapes(box);
  }

  drawRuns(box) {
    const [x0, y0, x1, y1] = this.seenIn(box);
    for (const [row, column, count] of this.view.map.runs) {
      if (row < y0 || row >= y1) continue;
      const [[left, top], [right, bottom]] = [this.corner(column, row), this.corner(column + count, row + 1)];
      this.pen.fillRect(left, top, right - left, bottom - top);
    }
    if (this.isSeenFrom(SMALLEST_OUTLINE)) this.outline(x0, y0, x1, y1);
  }

  isOut(x, y) {
    const { map } = this.view;
    return !map.isInside(x, y) || !map.selected[y * map.width + x];
  }

  outline(x0, y0, x1, y1) {
    this.pen.beginPath();
    for (let y = y0; y < y1; y++) {
      for (let x = x0; x < x1; x++) if (!this.isOut(x, y)) this.addEdges(x, y);
    }
    this.pen.stroke();
  }

  addEdges(x, y) {
    const [[left, top], [right, bottom]] = [this.corner(x, y), this.corner(x + 1, y + 1)];
    if (this.isOut(x - 1, y)) this.line(left, top, left, bottom);
    if (this.isOut(x + 1, y)) this.line(right, top, right, bottom);
    if (this.isOut(x, y - 1)) this.line(left, top, right, top);
    if (this.isOut(x, y + 1)) this.line(left, bottom, right, bottom);
  }

  drawShapes(box) {
    const { pen } = this;
    pen.beginPath();
    this.eachSeenIn(box, (x, y) => this.isOut(x, y) || this.addShape(pen, x, y));
    pen.fill();
    if (this.isSeenFrom(SMALLEST_OUTLINE)) pen.stroke();
  }
}
