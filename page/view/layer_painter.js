// SPDX-License-Identifier: MIT OR Apache-2.0
// Paints the layers of a map into a part of the screen, in their order: tiles, images, and of objects those that are tiles or texts.
import { drawTile } from "./draw_tile.js";
import { paintFar } from "./far_painter.js";
import { areTouching } from "./object_boxes.js";
import { DIAGONAL, idIn } from "../core/tile_numbers.js";
import { isThing, paintThing } from "./thing_painter.js";
import { colourOfText } from "./tints.js";

// Below this width of a cell its mean colour is drawn, and no image.
const SMALLEST_TILE = 6;
const GROUND = "#5b6068";

// Whether a layer stands where the map does, and what it has hides what is below.
const isPlain = layer => layer.opacity === 1 && layer.offsetX === 0 && layer.offsetY === 0 && !layer.tint;

// Objects of a layer in the order in which they are drawn: the upper ones first, if it says nothing else.
function inOrder(objects, { data }) {
  return data.draworder === "index" ? objects : objects.sort((one, other) => (one.y ?? 0) - (other.y ?? 0));
}

export class LayerPainter {
  constructor(view, images) {
    Object.assign(this, { view, images });
  }

  get tints() {
    return this.images.tints;
  }

  get isFar() {
    return this.view.map.tileWidth * this.view.scale < SMALLEST_TILE;
  }

  // Paints a box of the screen: [left, top, right, bottom], in whole pixels.
  paint(box) {
    const { view } = this;
    const { pen } = view;
    const [left, top, right, bottom] = box;
    if (right <= left || bottom <= top) return;
    pen.save();
    pen.beginPath();
    pen.rect(left, top, right - left, bottom - top);
    pen.clip();
    pen.fillStyle = view.behind;
    pen.fillRect(left, top, right - left, bottom - top);
    if (view.map) this.paintMap(box);
    pen.restore();
  }

  paintMap(box) {
    const { view } = this;
    const { map, pen } = view;
    const { width, height } = map.projection;
    const [left, top] = [view.screenX(0), view.screenY(0)];
    pen.fillStyle = colourOfText(map.data.backgroundcolor, GROUND);
    pen.fillRect(left, top, view.screenX(width) - left, view.screenY(height) - top);
    const layers = map.layers.filter(layer => layer.isSeen && layer.type !== "group");
    if (this.isFar) this.paintAfar(layers, box);
    else this.paintNear(layers, box);
    pen.globalAlpha = 1;
  }

  // ---- from afar
  // Tile layers that stand one behind the other in one place are painted together.
  paintAfar(layers, box) {
    let batch = [];
    const flush = () => {
      if (batch.length) paintFar(this.view, batch, box);
      batch = [];
    };
    for (const layer of layers) {
      const isAside = batch.length && (layer.offsetX !== batch[0].offsetX || layer.offsetY !== batch[0].offsetY);
      if (!layer.isTiles || isAside) flush();
      if (layer.isTiles) batch.push(layer);
      else this.paintThings(layer, box);
    }
    flush();
  }

  // Paints what is no tile of a cell: an image, or objects.
  paintThings(layer, box) {
    this.view.pen.globalAlpha = layer.opacity;
    this.view.pen.imageSmoothingEnabled = this.view.scale < 1;
    if (layer.type === "imagelayer") this.paintImage(layer);
    else for (const object of inOrder(this.thingsIn(layer, box), layer)) paintThing(this, layer, object);
  }

  // The objects of a layer that may be seen in a box.
  thingsIn(layer, box) {
    const { view } = this;
    return (layer.data.objects ?? []).filter(each => isThing(each) && !view.hidden.has(each.id) && areTouching(view.boxOfThing(each, layer), box));
  }

  // ---- near
  paintNear(layers, box) {
    const hiding = this.hidingLayers(layers, box);
    layers.forEach((layer, at) => {
      if (!layer.isTiles) return this.paintThings(layer, box);
      if (at < hiding.lowest) return null;
      this.view.pen.globalAlpha = layer.opacity;
      this.view.pen.imageSmoothingEnabled = this.view.scale < 1;
      return this.paintTiles(layer, at, hiding, box);
    });
  }

  // For each cell of a box the highest layer whose tile hides all below it, by its place among the layers; 0 where none does. And the
  // lowest layer that is seen somewhere.
  hidingLayers(layers, box) {
    const { view } = this;
    const cells = view.within(view.map.projection.cellsIn(view.boxOnMap(box)));
    if (!view.map.projection.isPlain) return { tops: null, cells, lowest: 0 };
    const [x0, y0, x1, y1] = cells;
    const tops = new Uint16Array(Math.max(0, x1 - x0) * Math.max(0, y1 - y0));
    let left = tops.length;
    let lowest = layers.length;
    while (lowest > 0 && left > 0) {
      lowest--;
      if (layers[lowest].isTiles && isPlain(layers[lowest])) left -= this.hide(layers[lowest], lowest, tops, cells);
    }
    return { tops, cells, lowest: view.reach().isAny ? 0 : lowest };
  }

  // Notes where a layer hides what is below it, and gives in how many cells it is the first to do so.
  hide(layer, at, tops, [x0, y0, x1, y1]) {
    const { map, cache, tilesets } = this.view;
    const [values, [left, top, right]] = [cache.cellsOf(layer.id), cache.box];
    let found = 0;
    for (let y = y0, spot = 0; y < y1; y++) {
      for (let place = (y - top) * (right - left) + x0 - left, end = place + x1 - x0; place < end; place++, spot++) {
        if (tops[spot] || values[place] === 0 || !tilesets.hides(values[place], map.tileWidth, map.tileHeight)) continue;
        tops[spot] = at;
        found++;
      }
    }
    return found;
  }

  paintTiles(layer, at, { tops, cells: [x0, y0, x1, y1] }, box) {
    const { view } = this;
    const { map: { projection }, cache } = view;
    const part = view.boxOnMap(box, layer, true);
    const [values, [left, top, right]] = [cache.cellsOf(layer.id), cache.box];
    const mayHide = tops !== null && isPlain(layer);
    const isHidden = (x, y) => x >= x0 && x < x1 && y >= y0 && y < y1 && tops[(y - y0) * (x1 - x0) + x - x0] > at;
    const tinted = layer.tint ? image => this.tints.of(image, layer.tint) : null;
    projection.walk(view.within(projection.cellsIn(part)), part, (x, y) => {
      const value = values[(y - top) * (right - left) + x - left];
      if (value === 0 || (mayHide && isHidden(x, y) && !this.isLarge(value))) return;
      this.paintCell(layer, value, x, y, tinted);
    });
  }

  // Whether a tile reaches out of its cell.
  isLarge(value) {
    const { map, tilesets } = this.view;
    const tileset = tilesets.of(value);
    const tile = idIn(value, tileset);
    if (!tileset?.has(tile)) return false;
    const [width, height] = tileset.sizeOf(tile);
    return width !== map.tileWidth || height !== map.tileHeight || tileset.offsetX !== 0 || tileset.offsetY !== 0;
  }

  // A tile stands on the lower left corner of its cell; one of another size reaches up and to the right.
  paintCell(layer, value, x, y, tinted, pen = this.view.pen) {
    const { view } = this;
    const { map, scale, tilesets } = view;
    const [asideX, asideY] = [Math.round(layer.offsetX * scale), Math.round(layer.offsetY * scale)];
    const [cornerX, cornerY] = map.projection.corner(x, y);
    const [left, top] = [view.screenX(cornerX) + asideX, view.screenY(cornerY) + asideY];
    const { tileWidth, tileHeight } = map.projection;
    const [width, height] = [view.screenX(cornerX + tileWidth) + asideX - left, view.screenY(cornerY + tileHeight) + asideY - top];
    if (!this.isLarge(value)) return drawTile(pen, tilesets, value, left, top, width, height, tinted, map.isHexagonal);
    const tileset = tilesets.of(value);
    const isTurned = value & DIAGONAL && !map.isHexagonal;
    const [wide, high] = tileset.sizeOf(idIn(value, tileset)).map(side => Math.round(side * scale));
    const [across, down] = isTurned ? [high, wide] : [wide, high];
    const [toLeft, toTop] = [left + Math.round(tileset.offsetX * scale), top + height - down + Math.round(tileset.offsetY * scale)];
    return drawTile(pen, tilesets, value, toLeft, toTop, across, down, tinted, map.isHexagonal);
  }

  // ---- images
  paintImage(layer) {
    const { view } = this;
    const found = this.images.of(layer);
    if (!found) return;
    const image = layer.tint ? this.tints.of(found, layer.tint) : found;
    const [startX, startY] = view.map.imageStart;
    const [left, top] = [view.originX + (startX + layer.offsetX) * view.scale, view.originY + (startY + layer.offsetY) * view.scale].map(Math.round);
    const [width, height] = [found.width * view.scale, found.height * view.scale].map(Math.round);
    if (width < 1 || height < 1) return;
    const spread = (isRepeated, from, length, most) => (isRepeated ? [from - Math.ceil(from / length) * length, most] : [from, from + 1]);
    const [firstX, lastX] = spread(layer.data.repeatx, left, width, view.canvas.width);
    const [firstY, lastY] = spread(layer.data.repeaty, top, height, view.canvas.height);
    for (let y = firstY; y < lastY; y += height) this.paintRow(image, firstX, lastX, y, width, height);
  }

  paintRow(image, from, to, y, width, height) {
    for (let x = from; x < to; x += width) this.view.pen.drawImage(image, x, y, width, height);
  }
}
