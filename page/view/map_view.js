// SPDX-License-Identifier: MIT OR Apache-2.0
// Shows a part of the map: only what is seen is drawn, and behind a stroke only what it has changed. Lengths are pixels of the screen.
import { LayerPainter } from "./layer_painter.js";
import { MapImages } from "./map_images.js";
import { CellCache, around } from "./cell_cache.js";
import { boxesOn, placeOnScreen } from "./object_boxes.js";
import { isThing, reachOfThing } from "./thing_painter.js";

export { drawTile } from "./draw_tile.js";

const SCALES = [1 / 64, 1 / 48, 1 / 32, 1 / 24, 1 / 16, 1 / 12, 1 / 8, 1 / 6, 1 / 4, 1 / 3, 1 / 2, 2 / 3, 1, 1.5, 2, 3, 4, 6, 8, 12, 16];
const MOST_MEASURES = 1000;
// How many cells are drawn at the hand's event itself.
const MOST_AT_ONCE = 2500;
// The space around a map that is fitted into the window, and how much of the map stays in view at least.
const MARGIN = 8;
const LEAST_SEEN = 48;
// The largest scale of a map that is fitted.
const LARGEST_FIT = 4;

export class MapView {
  constructor(box, editor, tilesets) {
    this.box = box;
    this.editor = editor;
    this.tilesets = tilesets;
    this.canvas = box.querySelector("#map");
    this.pen = this.canvas.getContext("2d", { alpha: false });
    this.images = new MapImages(editor, tilesets);
    this.images.onImage = () => this.redraw();
    this.painter = new LayerPainter(this, this.images);
    this.scale = 2;
    this.originX = this.originY = 16;
    this.changed = null;
    // The map that was taken last.
    this.shownMap = null;
    // What was drawn last, of a stroke all of it: the cells from x0, y0 to x1, y1.
    this.drawn = null;
    // How many strokes were begun, and whether the last one goes on.
    Object.assign(this, { strokes: 0, isHeld: false });
    // The objects that are not drawn, since they are shown elsewhere while they are dragged.
    this.hidden = new Set();
    this.isWhole = true;
    this.moved = [0, 0];
    // Objects where which all is drawn anew: { object, layer }.
    this.things = [];
    this.cache = new CellCache();
    this.measures = [];
    // When the page began to work on the hand's last event.
    this.work = 0;
    this.takeLook();
    // Called behind each drawing that the view has moved for, and behind each one of cells that have changed.
    this.onMove = () => {};
    this.onDrawn = () => {};
    this.resize();
    this.watch();
  }

  get map() {
    return this.editor.map;
  }

  // What is seen beside the map has the colour of its box, which is another one in the dark.
  takeLook() {
    this.behind = getComputedStyle(this.box).backgroundColor;
    this.redraw();
  }

  // Follows the size of its box, and the scale of the screen.
  watch() {
    const watcher = new ResizeObserver(([entry]) => this.resize(entry.devicePixelContentBoxSize?.[0]));
    try {
      watcher.observe(this.box, { box: "device-pixel-content-box" });
    } catch {
      watcher.observe(this.box);
    }
    this.watchRatio();
  }

  watchRatio() {
    this.screen = matchMedia(`(resolution: ${devicePixelRatio}dppx)`);
    this.screen.onchange = () => {
      this.resize();
      this.watchRatio();
    };
  }

  // Has each pixel of the canvases be one of the screen. `size` is that of the box in such pixels, where the browser tells it.
  resize(size = null) {
    this.ratio = window.devicePixelRatio || 1;
    const lengthOf = (length, measured) => Math.max(1, Math.abs(measured - length * this.ratio) < 2 ? measured : Math.round(length * this.ratio));
    const width = lengthOf(this.box.clientWidth, size?.inlineSize);
    const height = lengthOf(this.box.clientHeight, size?.blockSize);
    for (const canvas of this.box.querySelectorAll("#map, #overlay, #hand")) {
      if (canvas.width !== width) canvas.width = width;
      if (canvas.height !== height) canvas.height = height;
      this.align(canvas);
    }
    this.redraw();
  }

  // The box may begin within a pixel of the screen.
  align(canvas) {
    const { left, top } = this.box.getBoundingClientRect();
    const aside = place => Math.round(place * this.ratio) / this.ratio - place;
    const { width, height } = canvas;
    const lengths = { left: aside(left), top: aside(top), width: width / this.ratio, height: height / this.ratio };
    for (const [name, length] of Object.entries(lengths)) canvas.style[name] = `${length}px`;
  }

  // ---- where things are
  // Where a pixel of the map stands on the screen.
  screenX(x) {
    return Math.round(this.originX + x * this.scale);
  }

  screenY(y) {
    return Math.round(this.originY + y * this.scale);
  }

  // The corners of a cell on the screen.
  shapeOf(x, y) {
    return this.map.projection.shape(x, y).map(([left, top]) => [this.screenX(left), this.screenY(top)]);
  }

  // A box of the screen on the map: as a layer lies, and with the cells whose tiles reach into it.
  boxOnMap([left, top, right, bottom], layer = null, isWidened = false) {
    const reach = isWidened ? this.reach() : { left: 0, right: 0, up: 0, down: 0 };
    const onMap = (at, origin, aside) => (at - origin) / this.scale - aside;
    return [
      onMap(left, this.originX, layer?.offsetX ?? 0) - reach.right, onMap(top, this.originY, layer?.offsetY ?? 0) - reach.down,
      onMap(right, this.originX, layer?.offsetX ?? 0) + reach.left, onMap(bottom, this.originY, layer?.offsetY ?? 0) + reach.up,
    ];
  }

  // The place of the hand on the screen, on the map in pixels as objects count them, and its cell: that of a layer, where one is named.
  placeOf(event, layer = null) {
    const frame = this.canvas.getBoundingClientRect();
    const [x, y] = [(event.clientX - frame.left) * this.ratio, (event.clientY - frame.top) * this.ratio];
    const [left, top] = [(x - this.originX) / this.scale, (y - this.originY) / this.scale];
    const { projection } = this.map ?? {};
    const [pixelX, pixelY] = projection?.named(left, top) ?? [left, top];
    const cell = projection?.cellAt(left - (layer?.offsetX ?? 0), top - (layer?.offsetY ?? 0)) ?? [0, 0];
    return { x, y, pixelX, pixelY, cell };
  }

  // The middle of a cell, in pixels of the page: for scripts that look at pixels.
  middleOf(x, y) {
    const frame = this.canvas.getBoundingClientRect();
    const { projection } = this.map;
    const [left, top] = projection.corner(x, y);
    const across = (this.screenX(left) + this.screenX(left + projection.tileWidth)) / 2;
    const down = (this.screenY(top) + this.screenY(top + projection.tileHeight)) / 2;
    return [frame.left + across / this.ratio, frame.top + down / this.ratio];
  }

  // ---- moving
  // To the next scale that is larger or smaller, with what is at a place of the screen kept there.
  zoom(steps, x = this.canvas.width / 2, y = this.canvas.height / 2) {
    const larger = SCALES.find(scale => scale > this.scale * 1.001) ?? this.scale;
    const smaller = SCALES.filter(scale => scale < this.scale * 0.999).pop() ?? this.scale;
    this.zoomTo(steps > 0 ? larger : smaller, x, y);
  }

  zoomTo(scale, x = this.canvas.width / 2, y = this.canvas.height / 2) {
    this.originX = x - (x - this.originX) * scale / this.scale;
    this.originY = y - (y - this.originY) * scale / this.scale;
    this.scale = scale;
    this.redraw();
  }

  // By whole pixels, so that what is drawn already may move with it; never so far that nothing of the map is seen.
  pan(x, y) {
    const [width, height] = this.sizeOnScreen();
    const kept = (origin, length, by, most) => {
      const [least, last] = [Math.min(origin, LEAST_SEEN - length), Math.max(origin, most - LEAST_SEEN)];
      return Math.round(Math.max(least, Math.min(last, origin + Math.round(by))) - origin);
    };
    this.panBy(kept(this.originX, width, x, this.canvas.width), kept(this.originY, height, y, this.canvas.height));
  }

  panBy(x, y) {
    this.originX += x;
    this.originY += y;
    this.moved = [this.moved[0] + x, this.moved[1] + y];
    this.askFrame();
  }

  // The width and the height of the whole map.
  sizeOnScreen() {
    const { width = 0, height = 0 } = this.map?.projection ?? {};
    return [width * this.scale, height * this.scale];
  }

  // Shows the whole map, however large it is.
  fit() {
    if (!this.map) return;
    const { width, height } = this.map.projection;
    const most = Math.min((this.canvas.width - 2 * MARGIN) / width, (this.canvas.height - 2 * MARGIN) / height, LARGEST_FIT);
    this.scale = SCALES.filter(scale => scale <= most).pop() ?? Math.max(most, 1e-6);
    this.originX = Math.round(Math.max(MARGIN, (this.canvas.width - width * this.scale) / 2));
    this.originY = Math.round(Math.max(MARGIN, (this.canvas.height - height * this.scale) / 2));
    this.redraw();
  }

  // ---- drawing
  redraw() {
    this.isWhole = true;
    this.askFrame();
  }

  // Draws the cells that a stroke has changed: places in the rows of the map.
  redrawCells(edits) {
    const width = this.map.width;
    for (const { block, changed } of edits) {
      for (let at = 0; at < changed.places.length; at++) {
        const [x, y] = [changed.places[at] % width, Math.floor(changed.places[at] / width)];
        this.cache.put(block.layer, x, y, changed.after[at]);
        this.widen(x, y);
      }
    }
    this.askFrame();
  }

  // Draws those of the cells that are seen which are others by now; with parts, in which alone any may be: { layer, box } of each.
  refresh(parts = null) {
    if (this.isWhole && !parts) this.cache.forget();
    const box = this.map ? this.cache.refresh(parts) : null;
    if (box) {
      this.widen(box[0], box[1]);
      this.widen(box[2], box[3]);
    }
    this.askFrame();
  }

  // Draws where objects are, or were, that are tiles or texts: { object, layer } of each.
  redrawThings(all) {
    const things = all.filter(({ object }) => isThing(object));
    if (!things.length) return;
    this.things.push(...things);
    this.askFrame();
  }

  // The box of the screen in which a tile or a text is drawn.
  boxOfThing(object, layer) {
    const [x, y] = placeOnScreen(this, object, layer);
    const reach = reachOfThing(object, this.tilesets) * this.scale + 1;
    return [x - reach, y - reach, x + reach, y + reach];
  }

  // Shows the map that the editor has. Where parts are told, it has other cells in these alone. Where all in it has moved by some columns and
  // rows, that stays where it is seen; null where the map is another one.
  takeMap(parts = null, shift = null) {
    this.keepPlace(shift);
    this.drawn = null;
    this.cache.takeMap(this.map, parts);
    this.redraw();
  }

  keepPlace(shift) {
    const before = this.shownMap;
    this.shownMap = this.map;
    if (!before || !this.map || !shift) return;
    const [from, to] = [before.projection.corner(0, 0), this.map.projection.corner(...shift)];
    this.originX -= Math.round((to[0] - from[0]) * this.scale);
    this.originY -= Math.round((to[1] - from[1]) * this.scale);
  }

  // A stroke begins or ends. The frame of the screen that follows belongs to it.
  hold(isHeld) {
    if (isHeld) Object.assign(this, { drawn: null, isHeld, strokes: this.strokes + 1 });
    const { strokes } = this;
    if (!isHeld) requestAnimationFrame(() => strokes === this.strokes && (this.isHeld = false));
  }

  // The box of the window in which a stroke has drawn last, or null.
  drawnBox() {
    if (!this.drawn || !this.map) return null;
    const [x0, y0, x1, y1] = this.drawn;
    const frame = this.box.getBoundingClientRect();
    const [left, top, right, bottom] = this.onScreen(this.map.projection.boxOf([x0, y0, x1 + 1, y1 + 1])).map(edge => edge / this.ratio);
    return { left: frame.left + left, top: frame.top + top, right: frame.left + right, bottom: frame.top + bottom };
  }

  onScreen([left, top, right, bottom]) {
    return [this.screenX(left), this.screenY(top), this.screenX(right), this.screenY(bottom)];
  }

  widen(x, y) {
    this.changed = around(this.changed, [x, y, x, y]);
  }

  // Has the browser note how long it took from a moment until the next drawing stood.
  measure(name, start) {
    this.measures.push([name, start]);
    this.askFrame();
  }

  endMeasures() {
    if (performance.getEntriesByType("measure").length > MOST_MEASURES) performance.clearMeasures();
    for (const [name, start] of this.measures) performance.measure(name, { start, end: performance.now() });
    this.measures = [];
  }

  askFrame() {
    this.frame ??= requestAnimationFrame(() => {
      this.frame = null;
      this.draw();
    });
  }

  // Draws what a stroke has changed at once, where there is nothing else to draw, and few cells: else the next frame of the screen does.
  drawNow() {
    if (!this.changed || this.isWhole || this.moved[0] || this.moved[1]) return;
    const [x0, y0, x1, y1] = this.changed;
    if ((x1 - x0 + 1) * (y1 - y0 + 1) > MOST_AT_ONCE) return;
    cancelAnimationFrame(this.frame);
    this.frame = null;
    this.draw();
  }

  draw() {
    if (this.ratio !== devicePixelRatio) this.resize();
    const { changed, moved } = this;
    const isMoved = moved[0] !== 0 || moved[1] !== 0;
    const boxes = this.map ? boxesOn(this.canvas, this.things.map(({ object, layer }) => this.boxOfThing(object, layer))) : [];
    const isWhole = this.isWhole || boxes === null;
    Object.assign(this, { isWhole: false, changed: null, moved: [0, 0], things: [] });
    if (this.map) this.cache.takeBox(this.boxSeen());
    if (isWhole || !this.map) this.painter.paint([0, 0, this.canvas.width, this.canvas.height]);
    else if (isMoved) this.drawMoved(...moved);
    if (!isWhole) for (const box of boxes) this.painter.paint(box);
    if (changed && this.map && !isWhole) this.painter.paint(this.boxOfChanged(changed));
    if (changed) this.drawn = around(this.isHeld ? this.drawn : null, changed);
    this.endMeasures();
    if (isWhole || isMoved) this.onMove();
    if (changed) this.onDrawn();
  }

  // Moves what is drawn, and draws what has come into view.
  drawMoved(x, y) {
    const { width, height } = this.canvas;
    this.pen.drawImage(this.canvas, x, y);
    if (x !== 0) this.painter.paint([x > 0 ? 0 : Math.max(0, width + x), 0, x > 0 ? Math.min(x, width) : width, height]);
    if (y !== 0) this.painter.paint([0, y > 0 ? 0 : Math.max(0, height + y), width, y > 0 ? Math.min(y, height) : height]);
  }

  // The cells that may be seen, with those whose tiles reach into view.
  boxSeen() {
    const { width, height, projection } = this.map;
    const { aside } = this.reach();
    const [left, top, right, bottom] = this.boxOnMap([0, 0, this.canvas.width, this.canvas.height], null, true);
    const [x0, y0, x1, y1] = projection.cellsIn([left - aside, top - aside, right + aside, bottom + aside]);
    const within = (cell, most) => Math.max(0, Math.min(most, cell));
    return [within(x0, width), within(y0, height), within(x1, width), within(y1, height)];
  }

  // A part of the map within the cells that may be seen.
  within([x0, y0, x1, y1]) {
    const [left, top, right, bottom] = this.cache.box;
    return [Math.max(x0, left), Math.max(y0, top), Math.min(x1, right), Math.min(y1, bottom)];
  }

  // How far tiles reach out of their cells, and layers are moved aside, in pixels of the map.
  reach() {
    const { map, tilesets } = this;
    if (this.reached?.map === map && this.reached.all === tilesets.all) return this.reached;
    const { tileWidth, tileHeight } = map.projection;
    const most = { left: 0, right: 0, up: 0, down: 0 };
    for (const set of tilesets.all.filter(each => each.image)) {
      // A tile may be turned.
      const longest = Math.max(set.tileWidth, set.tileHeight);
      const [wide, high] = set.tileWidth === tileWidth && set.tileHeight === tileHeight ? [tileWidth, tileHeight] : [longest, longest];
      most.left = Math.max(most.left, -set.offsetX);
      most.right = Math.max(most.right, wide + set.offsetX - tileWidth);
      most.up = Math.max(most.up, high - set.offsetY - tileHeight);
      most.down = Math.max(most.down, set.offsetY);
    }
    const aside = map.layers.reduce((far, layer) => Math.max(far, Math.abs(layer.offsetX), Math.abs(layer.offsetY)), 0);
    const isAny = aside > 0 || Object.values(most).some(length => length > 0);
    this.reached = { ...most, aside, isAny, map, all: tilesets.all };
    return this.reached;
  }

  // The box of the screen to draw where the cells from x0, y0 to x1, y1 have changed.
  boxOfChanged([x0, y0, x1, y1]) {
    const { left, right, up, down, aside, isAny } = this.reach();
    const box = this.map.projection.boxOf([x0, y0, x1 + 1, y1 + 1]);
    const wide = [box[0] - left - aside, box[1] - up - aside, box[2] + right + aside, box[3] + down + aside];
    const more = isAny || !this.map.projection.isPlain || this.map.tileWidth * this.scale < 1 ? 1 : 0;
    const [toLeft, top, toRight, bottom] = this.onScreen(wide);
    return [Math.max(0, toLeft - more), Math.max(0, top - more), Math.min(this.canvas.width, toRight + more), Math.min(this.canvas.height, bottom + more)];
  }
}
