// SPDX-License-Identifier: MIT OR Apache-2.0
// Draws a tile into a box of a canvas: a part of its tileset's image, flipped and turned as Tiled does; or a colour with a number.
import { DIAGONAL, HEXAGON, TILE, TO_SIDE, UP_DOWN, idIn } from "../core/tile_numbers.js";
import { colourOf } from "./tilesets.js";

const SMALLEST_NUMBER = 15;

// How a tile is flipped and turned: first over its diagonal, then to the other side, then upside down.
function matrixOf(value) {
  const [toSide, upDown] = [value & TO_SIDE ? -1 : 1, value & UP_DOWN ? -1 : 1];
  return value & DIAGONAL ? [0, upDown, toSide, 0] : [toSide, 0, 0, upDown];
}

// On a hexagonal map two of the flags turn a tile by 60 and by 120 degrees.
function hexagonMatrixOf(value) {
  const angle = ((value & DIAGONAL ? 60 : 0) + (value & HEXAGON ? 120 : 0)) * Math.PI / 180;
  const [toSide, upDown] = [value & TO_SIDE ? -1 : 1, value & UP_DOWN ? -1 : 1];
  return [Math.cos(angle) * toSide, Math.sin(angle) * toSide, -Math.sin(angle) * upDown, Math.cos(angle) * upDown];
}

// `tinted(image)` gives the image to take it from.
export function drawTile(pen, tilesets, value, x, y, width, height, tinted = null, isHexagonal = false) {
  const tileset = tilesets.of(value);
  const tile = idIn(value, tileset);
  if (!tileset?.has(tile)) {
    drawNumber(pen, value, tile, x, y, width, height);
    return;
  }
  const [fromX, fromY] = tileset.placeOf(tile);
  const [tileWidth, tileHeight] = tileset.sizeOf(tile);
  const image = tinted ? tinted(tileset.imageFor(tile)) : tileset.imageFor(tile);
  if (value <= TILE) {
    pen.drawImage(image, fromX, fromY, tileWidth, tileHeight, x, y, width, height);
    return;
  }
  const [wide, high] = value & DIAGONAL && !isHexagonal ? [height, width] : [width, height];
  const before = pen.getTransform();
  pen.translate(x + width / 2, y + height / 2);
  pen.transform(...(isHexagonal ? hexagonMatrixOf(value) : matrixOf(value)), 0, 0);
  pen.drawImage(image, fromX, fromY, tileWidth, tileHeight, -wide / 2, -high / 2, wide, high);
  pen.setTransform(before);
}

function drawNumber(pen, value, number, x, y, width, height) {
  pen.fillStyle = colourOf(value);
  pen.fillRect(x, y, width, height);
  if (width < SMALLEST_NUMBER) return;
  pen.fillStyle = "#fffc";
  pen.font = `${Math.round(Math.min(height * 0.5, width * 0.4))}px sans-serif`;
  pen.textAlign = "center";
  pen.textBaseline = "middle";
  pen.fillText(String(number), x + width / 2, y + height / 2);
}
