// SPDX-License-Identifier: MIT OR Apache-2.0
// The palette: the tiles of a tileset, to click at one or to drag over several; and the stamp that the brush has. Only what is seen of it
// is drawn.
import { byId, putText } from "./dom.js";
import { drawTile } from "../view/map_view.js";
import { TILE, idIn } from "../core/tile_numbers.js";
import { TileUses } from "../core/tile_uses.js";
import { wordsOf } from "../core/tile_words.js";

// How wide a tile may be, in pixels of the page; and how many stand in a row where no image tells.
const SIDES = [16, 24, 32, 48, 64, 96, 128];
const USUAL = 2;
const WIDEST = 8;
// How far tiles stand apart, and before the first one, in pixels of the page.
const GAP = 1;
// The frame of a chosen tile: a light line between two dark ones, of which one is seen on any tile.
const FRAME = { light: "#ffd34d", dark: "#10131a" };
// The side of the picture of the stamp, in pixels of the page.
const STAMP = 56;

const wordsOfUses = count => (count ? `used ${count === 1 ? "once" : `${count.toLocaleString("en-US")} times`}` : "not used");

export class Palette {
  constructor(bench, tilesets) {
    this.uses = new TileUses(bench.editor);
    this.bench = bench;
    this.tilesets = tilesets;
    this.first = null;
    // The tiles of a stamp, which have a frame, and the values of that stamp.
    Object.assign(this, { framed: new Set(), framedOf: null });
    this.side = SIDES[USUAL];
    this.canvas = byId("palette");
    this.pen = this.canvas.getContext("2d");
    this.box = byId("palette-box");
    this.canvas.onpointerdown = event => this.down(event);
    this.canvas.onpointermove = event => this.move(event);
    this.canvas.onpointerup = event => this.up(event);
    this.canvas.onpointerleave = () => this.tell(null);
    this.box.onscroll = () => this.askFrame();
    this.box.addEventListener("wheel", event => this.wheel(event), { passive: false });
    new ResizeObserver(() => this.askFrame()).observe(this.box);
    bench.addEventListener("stamp", () => this.takeStamp());
  }

  get tileset() {
    return this.tilesets.all.find(set => set.first === this.first) ?? this.tilesets.all[0];
  }

  // The columns of the image, or eight.
  get columns() {
    return this.tileset.image ? this.tileset.columns : WIDEST;
  }

  get rows() {
    return Math.ceil(this.tileset.count / this.columns);
  }

  // How far it is from a tile to the next one.
  get pitch() {
    return this.side + GAP;
  }

  // Shows a tileset of the map, by its first id.
  choose(first) {
    this.first = first;
    byId("tilesets").value = String(first);
    this.box.scrollTo(0, 0);
    this.draw();
    this.bench.tell("layout");
  }

  // ---- its scale
  // By steps, where a point of what is seen stays: the upper left corner, or where the hand is.
  zoom(steps, x = 0, y = 0) {
    const at = Math.max(0, Math.min(SIDES.length - 1, SIDES.indexOf(this.side) + steps));
    this.zoomTo(SIDES[at], x, y);
  }

  zoomTo(side, x = 0, y = 0) {
    if (!SIDES.includes(side) || side === this.side) return;
    const { box } = this;
    const larger = (side + GAP) / this.pitch;
    const [left, top] = [(box.scrollLeft + x) * larger - x, (box.scrollTop + y) * larger - y];
    this.side = side;
    this.draw();
    box.scrollTo(left, top);
    this.bench.tell("layout");
  }

  wheel(event) {
    if (!event.ctrlKey && !event.metaKey) return;
    event.preventDefault();
    const frame = this.box.getBoundingClientRect();
    this.zoom(event.deltaY < 0 ? 1 : -1, event.clientX - frame.left, event.clientY - frame.top);
  }

  // ---- drawing
  askFrame() {
    this.frame ??= requestAnimationFrame(() => {
      this.frame = null;
      this.draw();
    });
  }

  draw() {
    const set = this.tileset;
    const size = byId("palette-size");
    size.hidden = !set;
    if (!set) return;
    const [width, height] = [this.columns * this.pitch + GAP, this.rows * this.pitch + GAP];
    size.style.width = `${width}px`;
    size.style.height = `${height}px`;
    this.sizeCanvas(Math.min(width, this.box.clientWidth), Math.min(height, this.box.clientHeight));
    const [left, top] = this.corner();
    const ratio = devicePixelRatio;
    this.pen.setTransform(ratio, 0, 0, ratio, -left * ratio, -top * ratio);
    this.pen.clearRect(left, top, this.box.clientWidth, this.box.clientHeight);
    this.pen.imageSmoothingEnabled = this.side < set.tileWidth;
    this.drawRows(set, left, top);
    this.drawFrame();
  }

  // Draws the rows and columns of tiles that are seen.
  drawRows(set, left, top) {
    const { pitch, box } = this;
    const [right, bottom] = [Math.ceil((left + box.clientWidth) / pitch), Math.ceil((top + box.clientHeight) / pitch)];
    const columns = [Math.floor(left / pitch), Math.min(right, this.columns)];
    for (let row = Math.floor(top / pitch); row < Math.min(bottom, this.rows); row++) this.drawRow(set, row, ...columns);
  }

  drawRow(set, row, from, to) {
    for (let column = from; column < to; column++) {
      const tile = row * this.columns + column;
      if (tile < set.count) this.drawTile(set, tile, ...this.spotOf(tile));
    }
  }

  // A canvas is as large as what is seen, in pixels of the screen.
  sizeCanvas(width, height) {
    const [wide, high] = [width, height].map(length => Math.max(1, Math.round(length * devicePixelRatio)));
    if (this.canvas.width !== wide) this.canvas.width = wide;
    if (this.canvas.height !== high) this.canvas.height = high;
    this.canvas.style.width = `${width}px`;
    this.canvas.style.height = `${height}px`;
  }

  // Where the upper left corner of the canvas is among the tiles.
  corner() {
    const [inside, all] = [this.canvas.getBoundingClientRect(), byId("palette-size").getBoundingClientRect()];
    return [inside.left - all.left, inside.top - all.top];
  }

  // The upper left corner of a tile among all.
  spotOf(tile) {
    return [tile % this.columns * this.pitch + GAP, Math.floor(tile / this.columns) * this.pitch + GAP];
  }

  drawTile(set, tile, x, y) {
    const [width, height] = set.has(tile) ? set.sizeOf(tile) : [set.tileWidth, set.tileHeight];
    const scale = Math.min(this.side / width, this.side / height);
    drawTile(this.pen, this.tilesets, set.first + tile, x, y, width * scale, height * scale);
  }

  // A frame around the tiles of the stamp, where they stand in this tileset.
  drawFrame() {
    const { pen, side, tileset, bench: { stamp: { values } } } = this;
    if (values !== this.framedOf) Object.assign(this, { framed: new Set(values.filter(each => each !== 0).map(each => each & TILE)), framedOf: values });
    for (const value of this.framed) {
      const tile = value - tileset.first;
      if (tile < 0 || tile >= tileset.count) continue;
      const [x, y] = this.spotOf(tile);
      for (const [colour, width, inset] of [[FRAME.dark, 1, 0.5], [FRAME.light, 2, 2], [FRAME.dark, 1, 3.5]]) {
        Object.assign(pen, { strokeStyle: colour, lineWidth: width });
        pen.strokeRect(x + inset, y + inset, side - 2 * inset, side - 2 * inset);
      }
    }
  }

  drawStamp() {
    const { width, height, values } = this.bench.stamp;
    const canvas = byId("stamp");
    canvas.width = canvas.height = Math.round(STAMP * devicePixelRatio);
    const pen = canvas.getContext("2d");
    const side = Math.floor(canvas.width / Math.max(width, height));
    pen.imageSmoothingEnabled = false;
    if (side > 0) values.forEach((value, at) => value && drawTile(pen, this.tilesets, value, at % width * side, Math.floor(at / width) * side, side, side));
    putText(byId("stamp-size"), values.length === 1 ? wordsOf(values[0], this.tilesets) : `${width} × ${height}`);
  }

  // ---- the stamp
  // Shows where the first tile of a stamp stands that was taken elsewhere.
  takeStamp() {
    const value = this.bench.stamp.values.find(each => each !== 0) ?? 0;
    const tileset = this.tilesets.of(value);
    if (!this.from && tileset && value) this.reveal(tileset, idIn(value, tileset));
    this.show();
  }

  // At first all columns are seen, where that takes no more than a step down.
  fitOnce() {
    if (this.isFitted || !this.tileset) return;
    this.isFitted = true;
    const smaller = SIDES[SIDES.indexOf(this.side) - 1];
    const fits = side => this.columns * (side + GAP) < this.box.clientWidth;
    if (!fits(this.side) && fits(smaller)) this.side = smaller;
  }

  // Draws the tiles and the stamp.
  show() {
    this.fitOnce();
    this.draw();
    this.drawStamp();
  }

  reveal(tileset, tile) {
    if (tileset !== this.tileset) this.choose(tileset.first);
    else this.draw();
    const { box, pitch } = this;
    const [x, y] = this.spotOf(tile);
    const within = (from, length, at) => Math.max(at + pitch - length, Math.min(from, at - GAP));
    box.scrollTo(within(box.scrollLeft, box.clientWidth, x), within(box.scrollTop, box.clientHeight, y));
  }

  // ---- the hand
  placeOf(event) {
    const frame = byId("palette-size").getBoundingClientRect();
    const within = (length, most) => Math.max(0, Math.min(most - 1, Math.floor(length / this.pitch)));
    return [within(event.clientX - frame.left, this.columns), within(event.clientY - frame.top, this.rows)];
  }

  down(event) {
    if (event.button !== 0 || !this.tileset) return;
    this.canvas.setPointerCapture(event.pointerId);
    this.from = this.placeOf(event);
    this.drag(event);
  }

  move(event) {
    if (!this.tileset) return;
    if (this.from) this.drag(event);
    this.tell(this.placeOf(event));
  }

  drag(event) {
    this.takeTiles(this.from, this.placeOf(event));
  }

  // Takes the tiles between two places of the palette as the stamp.
  takeTiles([x0, y0], [x1, y1]) {
    const [left, top, width, height] = [Math.min(x0, x1), Math.min(y0, y1), Math.abs(x1 - x0) + 1, Math.abs(y1 - y0) + 1];
    if (this.tilesets.isReading) return this.bench.say("The tilesets of this map are still being read.");
    const values = [];
    for (let at = 0; at < width * height; at++) {
      const tile = (top + Math.floor(at / width)) * this.columns + left + at % width;
      values.push(tile < this.tileset.count ? this.tileset.first + tile : 0);
    }
    return values.some(value => value) && this.bench.takeStamp({ width, height, values });
  }

  up(event) {
    if (this.from) this.drag(event);
    this.from = null;
  }

  // Tells which tile is under the hand, by its id.
  tell(place) {
    const tile = place && place[0] + place[1] * this.columns;
    const isTile = place !== null && tile < this.tileset.count;
    byId("tile-number").textContent = isTile ? `tile ${tile}` : "";
    byId("tile-uses").textContent = isTile ? wordsOfUses(this.uses.of(this.tileset.first + tile)) : "";
  }
}
