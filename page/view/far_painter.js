// SPDX-License-Identifier: MIT OR Apache-2.0
// Paints tile layers from afar: the mean colour of each cell's tile.

// A colour with at least this alpha hides what is below it.
const HIDES = 250;
// Where cells are no rectangles, a tile's image has clear corners: above this alpha it fills its cell.
const FILLS = 24;

// How far a tile of a mean colour hides what is below it in its cell, up to 255.
export function alphaOf(colour, projection) {
  const alpha = colour >>> 24;
  return projection.isPlain || alpha <= FILLS ? alpha : 255;
}

// Paints layers that stand in one place into a box of the screen.
export function paintFar(view, layers, box) {
  const part = view.boxOnMap(box, layers[0], true);
  const cells = view.within(view.map.projection.cellsIn(part));
  if (cells[2] <= cells[0] || cells[3] <= cells[1]) return;
  const pixels = colours(view, layers, cells);
  if (view.map.projection.isPlain) paintCells(view, layers[0], pixels, cells);
  else paintPlaces(view, layers[0], pixels, cells, box);
}

// The colour of each cell, as pixels of 32 bits row by row.
function colours(view, layers, [x0, y0, x1, y1]) {
  const pixels = new Uint32Array((x1 - x0) * (y1 - y0));
  const { tops, lowest } = topLayers(view, layers, [x0, y0, x1, y1]);
  for (let at = lowest; at < layers.length; at++) addMeans(view, layers[at], at, tops, pixels, [x0, y0, x1, y1]);
  return pixels;
}

// One pixel for each cell, drawn larger or smaller.
function paintCells(view, layer, pixels, [x0, y0, x1, y1]) {
  const { map: { projection }, pen, scale } = view;
  const [left, top, right, bottom] = projection.boxOf([x0, y0, x1, y1]);
  const [asideX, asideY] = [Math.round(layer.offsetX * scale), Math.round(layer.offsetY * scale)];
  pen.globalAlpha = 1;
  pen.imageSmoothingEnabled = projection.tileWidth * scale < 1;
  const [width, height] = [view.screenX(right) - view.screenX(left), view.screenY(bottom) - view.screenY(top)];
  pen.drawImage(sheetOf(pixels, x1 - x0, y1 - y0), view.screenX(left) + asideX, view.screenY(top) + asideY, width, height);
}

// A picture of pixels of 32 bits.
export function sheetOf(pixels, width, height) {
  const sheet = new OffscreenCanvas(width, height);
  sheet.getContext("2d").putImageData(new ImageData(new Uint8ClampedArray(pixels.buffer), width, height), 0, 0);
  return sheet;
}

// Where cells are no rectangles: for each pixel of the screen the colour of the cell there.
function paintPlaces(view, layer, pixels, [x0, y0, x1, y1], [left, top, right, bottom]) {
  const { map: { projection }, pen, scale } = view;
  const [width, height] = [right - left, bottom - top];
  const shown = new Uint32Array(width * height);
  for (let at = 0; at < shown.length; at++) {
    const [across, down] = [left + at % width + 0.5, top + Math.floor(at / width) + 0.5];
    const [x, y] = projection.cellAt((across - view.originX) / scale - layer.offsetX, (down - view.originY) / scale - layer.offsetY);
    if (x >= x0 && x < x1 && y >= y0 && y < y1) shown[at] = pixels[(y - y0) * (x1 - x0) + x - x0];
  }
  pen.globalAlpha = 1;
  pen.drawImage(sheetOf(shown, width, height), left, top);
}

// For each cell the highest of these layers whose colour hides all below it, by its place among them; and the lowest that is seen.
function topLayers(view, layers, cells) {
  const tops = new Uint16Array((cells[2] - cells[0]) * (cells[3] - cells[1]));
  let left = tops.length;
  let lowest = layers.length;
  while (lowest > 0 && left > 0) left -= topCells(view, layers[--lowest], lowest, tops, cells);
  return { tops, lowest };
}

function topCells({ map, cache, tilesets }, layer, at, tops, [x0, y0, x1, y1]) {
  const [values, [left, top, right]] = [cache.cellsOf(layer.id), cache.box];
  let found = 0;
  for (let y = y0, spot = 0; y < y1; y++) {
    for (let place = (y - top) * (right - left) + x0 - left, end = place + x1 - x0; place < end; place++, spot++) {
      if (tops[spot] || values[place] === 0 || alphaOf(tilesets.mean(values[place]), map.projection) * layer.opacity < HIDES) continue;
      tops[spot] = at;
      found++;
    }
  }
  return found;
}

function addMeans({ map, cache, tilesets }, layer, at, tops, pixels, [x0, y0, x1, y1]) {
  const [values, [left, top, right]] = [cache.cellsOf(layer.id), cache.box];
  for (let y = y0, spot = 0; y < y1; y++) {
    for (let place = (y - top) * (right - left) + x0 - left, end = place + x1 - x0; place < end; place++, spot++) {
      const value = values[place];
      if (value === 0 || tops[spot] > at) continue;
      const colour = tilesets.mean(value);
      const alpha = alphaOf(colour, map.projection) * layer.opacity;
      pixels[spot] = alpha >= HIDES ? (colour | 0xff000000) >>> 0 : pixels[spot] === 0 ? faded(colour, alpha) : mixed(pixels[spot], colour, alpha / 255);
    }
  }
}

const faded = (colour, alpha) => ((colour & 0xffffff) | Math.round(alpha) << 24) >>> 0;

// A pixel with another one over it.
function mixed(under, over, share) {
  const part = shift => Math.round((under >>> shift & 255) * (1 - share) + (over >>> shift & 255) * share) << shift;
  return (Math.max(under >>> 24, over >>> 24) << 24 | part(16) | part(8) | part(0)) >>> 0;
}
