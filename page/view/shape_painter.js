// SPDX-License-Identifier: MIT OR Apache-2.0
// Draws the outlines of objects: rectangles, ellipses, polygons, lines, points as pins, and boxes around tiles and texts. The pen stands at the
// place of the object.
import { cornersOf } from "./object_shapes.js";
import { alignedAt } from "./thing_painter.js";

// From how many corners on a line is as thin as can be, and how many corners of one are drawn.
const MANY_CORNERS = 4096;
export const MOST_CORNERS = 65_536;
// A pin, in pixels of the page: how wide its head is, and how far above the point that is. How wide an object is that has no size.
export const PIN = { radius: 6, above: 13 };
const SPOT = 5;
const ALL_ROUND = 2 * Math.PI;

export class ShapePainter {
  constructor(view, tilesets) {
    Object.assign(this, { view, tilesets });
  }

  // Draws an object in the colours and the width of the pen.
  paint(pen, object) {
    if (object.point) return this.paintPin(pen);
    pen.save();
    pen.rotate((object.rotation ?? 0) * Math.PI / 180);
    pen.beginPath();
    const corners = cornersOf(object);
    if (object.gid) this.addTile(pen, object);
    else this.addShape(pen, object, corners);
    if (corners?.length > MANY_CORNERS) this.strokeThin(pen);
    else {
      if (!object.polyline && !object.gid) pen.fill();
      this.stroke(pen);
    }
    return pen.restore();
  }

  // The box of a tile.
  addTile(pen, object) {
    const { map, scale } = this.view;
    const [width, height] = [(object.width ?? 0) * scale, (object.height ?? 0) * scale];
    const [left, top] = alignedAt(this.tilesets.of(object.gid), map);
    pen.rect(-left * width, -top * height, width, height);
  }

  // Any other shape, which is slanted as the map is.
  addShape(pen, object, corners) {
    const { map, scale } = this.view;
    const [width, height] = [(object.width ?? 0) * scale, (object.height ?? 0) * scale];
    pen.save();
    pen.transform(...map.projection.matrix, 0, 0);
    if (corners) this.addCorners(pen, corners);
    else if (!width && !height) pen.arc(0, 0, SPOT * this.view.ratio, 0, ALL_ROUND);
    else if (object.ellipse) pen.ellipse(width / 2, height / 2, width / 2, height / 2, 0, 0, ALL_ROUND);
    else pen.rect(0, 0, width, height);
    if (object.polygon) pen.closePath();
    pen.restore();
  }

  addCorners(pen, corners) {
    const step = Math.ceil(corners.length / MOST_CORNERS);
    for (let at = 0; at < corners.length; at += step) pen.lineTo(corners[at].x * this.view.scale, corners[at].y * this.view.scale);
  }

  // A pin stands upright, whichever way its map is slanted.
  paintPin(pen) {
    const [radius, above] = [PIN.radius * this.view.ratio, PIN.above * this.view.ratio];
    const aside = Math.acos(radius / above);
    pen.beginPath();
    pen.moveTo(0, 0);
    pen.arc(0, -above, radius, Math.PI / 2 + aside, Math.PI / 2 - aside);
    pen.closePath();
    pen.fill();
    this.stroke(pen);
    pen.beginPath();
    pen.arc(0, -above, radius / 3, 0, ALL_ROUND);
    pen.fillStyle = pen.strokeStyle;
    pen.fill();
  }

  strokeThin(pen) {
    pen.lineWidth = 1;
    pen.stroke();
  }

  // A line with a dark edge, which is seen on any ground.
  stroke(pen) {
    const [colour, width] = [pen.strokeStyle, pen.lineWidth];
    pen.strokeStyle = "#000c";
    pen.lineWidth = width + 2 * this.view.ratio;
    pen.stroke();
    pen.strokeStyle = colour;
    pen.lineWidth = width;
    pen.stroke();
  }
}
