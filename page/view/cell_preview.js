// SPDX-License-Identifier: MIT OR Apache-2.0
// Draws over all what the hand is about to do with cells: the tiles that it would leave there, and around them a line of two colours.
import { MOST_SHAPES, SMALLEST_OUTLINE } from "./cell_overlay.js";
import { sheetOf } from "./far_painter.js";

const SHARE = 0.75;
const DARK = "#10131a";
// The pen is moved to where the layer lies.
const NOWHERE = { offsetX: 0, offsetY: 0 };

// What the hand is about to do: { cells: [x, y, width, height], isIn, valueAt, colour, layer }. Of the cells it is about those for which
// `isIn(x, y)` is true, or about all; `valueAt(x, y)` is the value that it leaves there, 0 for none, where it leaves tiles.
export class CellPreview {
  // `cells` knows where cells are on the screen, as the CellOverlay of the same view.
  constructor(view, cells, pen) {
    Object.assign(this, { view, cells, pen });
  }

  draw(hand) {
    const { pen, view } = this;
    pen.clearRect(0, 0, view.canvas.width, view.canvas.height);
    if (!view.map || !hand) return;
    const [right, down] = [hand.layer?.offsetX ?? 0, hand.layer?.offsetY ?? 0].map(by => Math.round(by * view.scale));
    const box = [-right, -down, view.canvas.width - right, view.canvas.height - down];
    const part = this.partOf(hand, box);
    pen.save();
    pen.translate(right, down);
    if (hand.valueAt) this.drawTiles(hand, part, box);
    this.drawOutline(hand, part);
    pen.restore();
  }

  // Those cells of the hand that are seen in a box of the screen: [x0, y0, x1, y1].
  partOf({ cells: [x, y, width, height], grows = false }, box) {
    const [x0, y0, x1, y1] = grows ? this.view.map.projection.cellsIn(this.cells.onMap(box)) : this.cells.seenIn(box);
    return [Math.max(x0, x), Math.max(y0, y), Math.min(x1, x + width), Math.min(y1, y + height)];
  }

  // Where the map `grows`, outside of it, too.
  drawTiles({ isIn = () => true, valueAt, grows = false }, part, box) {
    const { map, painter, scale } = this.view;
    const { pen } = this;
    const isReached = (x, y) => map.isReached(x, y) || (grows && !map.isInside(x, y));
    const found = (x, y) => (isIn(x, y) && isReached(x, y) ? valueAt(x, y) : 0);
    pen.globalAlpha = SHARE;
    pen.imageSmoothingEnabled = scale < 1;
    if (painter.isFar && map.projection.isPlain) this.drawColours(found, part);
    else if (!painter.isFar) {
      map.projection.walk(part, this.cells.onMap(box), (x, y) => {
        const value = found(x, y);
        if (value) painter.paintCell(NOWHERE, value, x, y, null, pen);
      });
    }
    pen.globalAlpha = 1;
  }

  // From afar each tile is its mean colour.
  drawColours(found, [x0, y0, x1, y1]) {
    if (x1 <= x0 || y1 <= y0) return;
    const { map, scale, tilesets } = this.view;
    const pixels = new Uint32Array((x1 - x0) * (y1 - y0));
    for (let y = y0, at = 0; y < y1; y++) {
      for (let x = x0; x < x1; x++, at++) {
        const value = found(x, y);
        if (value) pixels[at] = tilesets.mean(value);
      }
    }
    const [[left, top], [right, bottom]] = [this.cells.corner(x0, y0), this.cells.corner(x1, y1)];
    this.pen.imageSmoothingEnabled = map.tileWidth * scale < 1;
    this.pen.drawImage(sheetOf(pixels, x1 - x0, y1 - y0), left, top, right - left, bottom - top);
  }

  // ---- the line around
  drawOutline(hand, part) {
    const { pen } = this;
    pen.beginPath();
    if (!hand.isIn && this.cells.isPlain) this.addRectangle(hand.cells);
    else if (this.cells.isPlain) this.addEdges(hand.isIn, part);
    else this.addShapes(hand, part);
    for (const [colour, width] of [[DARK, 4], [hand.colour, 2]]) {
      Object.assign(pen, { strokeStyle: colour, lineWidth: width });
      pen.stroke();
    }
  }

  addRectangle([x, y, width, height]) {
    const [[left, top], [right, bottom]] = [this.cells.corner(x, y), this.cells.corner(x + width, y + height)];
    this.pen.rect(left, top, right - left, bottom - top);
  }

  // The edges between the cells of a part that it is about and the others.
  addEdges(isIn, [x0, y0, x1, y1]) {
    if (!this.cells.isSeenFrom(SMALLEST_OUTLINE)) return;
    for (let y = y0; y < y1; y++) {
      for (let x = x0; x < x1; x++) if (isIn(x, y)) this.addEdgesOf(isIn, x, y);
    }
  }

  addEdgesOf(isIn, x, y) {
    const [[left, top], [right, bottom]] = [this.cells.corner(x, y), this.cells.corner(x + 1, y + 1)];
    const edges = [[x - 1, y, left, top, left, bottom], [x + 1, y, right, top, right, bottom], [x, y - 1, left, top, right, top], [x, y + 1, left, bottom, right, bottom]];
    for (const [column, row, fromX, fromY, toX, toY] of edges) {
      if (isIn(column, row)) continue;
      this.pen.moveTo(fromX, fromY);
      this.pen.lineTo(toX, toY);
    }
  }

  // Where cells are no rectangles, each has its own line, also outside of the map; of many those that are seen have one.
  addShapes({ cells: [x, y, width, height], isIn = () => true }, part) {
    const isFew = width * height <= MOST_SHAPES;
    const [x0, y0, x1, y1] = isFew ? [x, y, x + width, y + height] : part;
    if ((x1 - x0) * (y1 - y0) > MOST_SHAPES) return;
    for (let row = y0; row < y1; row++) {
      for (let column = x0; column < x1; column++) if (isIn(column, row)) this.cells.addShape(this.pen, column, row);
    }
  }
}
