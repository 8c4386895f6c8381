// SPDX-License-Identifier: MIT OR Apache-2.0
// The whole map in small, where not all of it is seen: a press there moves the view.
import { element } from "../panels/dom.js";
import { alphaOf } from "./far_painter.js";

// Its longest side in pixels of the page, and how long behind a change it is drawn.
const LONGEST = 160;
const LATER = 400;
const GROUND = 0xff68605b;
// A tile whose colour has a greater alpha than this is shown.
const SHOWN = 127;

export class MiniMap {
  constructor(view, editor) {
    Object.assign(this, { view, editor, isWanted: true, isStale: true, timer: null });
    // Whether a stroke is drawn, which it does not hold up.
    this.isBusy = () => false;
    this.canvas = element("canvas", { id: "mini-map", hidden: true, title: "The whole map: a press moves the view (M hides it)" });
    this.pen = this.canvas.getContext("2d");
    view.box.append(this.canvas);
    this.canvas.onpointerdown = event => this.down(event);
    this.canvas.onpointermove = event => this.move(event);
    this.canvas.onpointerup = this.canvas.onpointercancel = event => this.up(event);
    for (const name of ["map", "cells"]) editor.addEventListener(name, () => this.change());
    // A stroke draws its cells itself.
    editor.addEventListener("done", ({ detail: stroke }) => stroke && this.change());
  }

  turn() {
    this.isWanted = !this.isWanted;
    this.show();
  }

  // The map is another one, or has other cells: drawn anew a while later.
  change() {
    this.isStale = true;
    clearTimeout(this.timer);
    this.timer = setTimeout(() => (this.isBusy() ? this.change() : this.show()), LATER);
  }

  get map() {
    return this.editor.map;
  }

  isAllSeen() {
    const { canvas, originX, originY } = this.view;
    const [width, height] = this.view.sizeOnScreen();
    return originX >= 0 && originY >= 0 && originX + width <= canvas.width && originY + height <= canvas.height;
  }

  show() {
    this.canvas.hidden = !this.map || !this.isWanted || this.isAllSeen();
    if (this.canvas.hidden) return;
    const { width, height } = this.map.projection;
    const most = Math.min(LONGEST, this.view.box.clientWidth / 4) * this.view.ratio / Math.max(width, height);
    const [wide, high] = [width, height].map(length => Math.max(1, Math.round(length * most)));
    if (this.isStale || this.picture?.width !== wide || this.picture?.height !== high) this.drawMap(wide, high);
    this.isStale = false;
    this.canvas.width = wide;
    this.canvas.height = high;
    this.canvas.style.width = `${wide / this.view.ratio}px`;
    this.canvas.style.height = `${high / this.view.ratio}px`;
    this.pen.putImageData(this.picture, 0, 0);
    this.drawFrame(wide / width);
  }

  // What is seen of the map.
  drawFrame(by) {
    const { canvas, ratio } = this.view;
    const [left, top, right, bottom] = this.view.boxOnMap([0, 0, canvas.width, canvas.height]).map(edge => edge * by);
    for (const [colour, width] of [["#000", 3 * ratio], ["#ffd34d", 1.5 * ratio]]) {
      this.pen.strokeStyle = colour;
      this.pen.lineWidth = width;
      this.pen.strokeRect(left, top, right - left, bottom - top);
    }
  }

  // Looks at one cell for each pixel.
  drawMap(wide, high) {
    const { map, view: { tilesets } } = this;
    this.picture = new ImageData(wide, high);
    const pixels = new Uint32Array(this.picture.data.buffer).fill(GROUND);
    const cells = this.cellsFor(wide, high);
    for (const layer of map.layers.filter(each => each.isSeen && each.isTiles)) {
      const rows = new Map();
      for (let at = 0; at < pixels.length; at++) {
        const [x, y] = [cells[2 * at], cells[2 * at + 1]];
        if (x < 0) continue;
        if (!rows.has(y)) rows.set(y, map.cells(layer.id, 0, y, map.width, 1));
        const colour = rows.get(y)[x] && tilesets.mean(rows.get(y)[x]);
        if (alphaOf(colour, map.projection) > SHOWN) pixels[at] = (colour | 0xff000000) >>> 0;
      }
    }
  }

  // The cell of each pixel, column and row; -1 where there is none.
  cellsFor(wide, high) {
    const { map } = this;
    const { projection } = map;
    const cells = new Int32Array(2 * wide * high).fill(-1);
    for (let at = 0; at < wide * high; at++) {
      const [x, y] = projection.cellAt((at % wide + 0.5) * projection.width / wide, (Math.floor(at / wide) + 0.5) * projection.height / high);
      if (map.isInside(x, y)) [cells[2 * at], cells[2 * at + 1]] = [x, y];
    }
    return cells;
  }

  // ---- the hand
  down(event) {
    event.stopPropagation();
    event.preventDefault();
    this.canvas.setPointerCapture(event.pointerId);
    this.isHeld = true;
    this.go(event);
  }

  move(event) {
    event.stopPropagation();
    if (this.isHeld) this.go(event);
  }

  up(event) {
    event.stopPropagation();
    this.isHeld = false;
  }

  // Shows the part of the map around a place.
  go(event) {
    const { view } = this;
    const frame = this.canvas.getBoundingClientRect();
    const { width, height } = this.map.projection;
    const [x, y] = [(event.clientX - frame.left) / frame.width * width, (event.clientY - frame.top) / frame.height * height];
    view.pan(view.canvas.width / 2 - x * view.scale - view.originX, view.canvas.height / 2 - y * view.scale - view.originY);
  }
}
