// SPDX-License-Identifier: MIT OR Apache-2.0
// Paints the objects of a map that are tiles or texts, where the tiles of the map are painted: so a later layer may hide them.
import { drawTile } from "./draw_tile.js";
import { idIn } from "../core/tile_numbers.js";
import { colourOfText } from "./tints.js";

const LINE = 1.17;
// How far a tile stands from an object's place, in its own widths and heights, by the word of its tileset.
const ALIGNED = {
  topleft: [0, 0], top: [0.5, 0], topright: [1, 0], left: [0, 0.5], center: [0.5, 0.5], right: [1, 0.5], bottomleft: [0, 1], bottom: [0.5, 1],
  bottomright: [1, 1],
};

// Whether an object is painted here.
export const isThing = object => object.visible !== false && Boolean(object.gid || object.text);

// How far a tile or a text reaches from its place, in pixels of the map, however it is turned.
export function reachOfThing(object, tilesets) {
  const [width, height] = [object.width ?? 0, object.height ?? 0];
  const tileset = object.gid ? tilesets.of(object.gid) : null;
  return Math.hypot(width, height) + (tileset ? Math.hypot(...asideOf(object, tileset)) : 0);
}

// Paints an object of a layer, where it is a tile or a text.
export function paintThing({ view, tints }, layer, object, pen = view.pen) {
  if (!isThing(object)) return;
  const { map, scale } = view;
  const [x, y] = map.projection.place(object.x ?? 0, object.y ?? 0);
  pen.save();
  pen.translate(view.originX + (x + layer.offsetX) * scale, view.originY + (y + layer.offsetY) * scale);
  pen.rotate((object.rotation ?? 0) * Math.PI / 180);
  if (object.gid) paintTile(view, tints, layer, object, pen);
  else paintText(pen, object, scale);
  pen.restore();
}

// How far a tile object reaches to the left of its place and above it, as shares of its size.
export function alignedAt(tileset, map) {
  return ALIGNED[tileset?.alignment] ?? (map.projection.isIsometric ? ALIGNED.bottom : ALIGNED.bottomleft);
}

// How far its tileset moves a tile aside and down, which grows with the tile.
function asideOf({ gid, width = 0, height = 0 }, tileset) {
  const tile = idIn(gid, tileset);
  const [wide, high] = tileset?.has(tile) ? tileset.sizeOf(tile) : [1, 1];
  return [(tileset?.offsetX ?? 0) * width / wide, (tileset?.offsetY ?? 0) * height / high];
}

function paintTile(view, tints, layer, object, pen) {
  const { map, scale, tilesets } = view;
  const tileset = tilesets.of(object.gid);
  const [width, height] = [(object.width ?? 0) * scale, (object.height ?? 0) * scale];
  const [left, top] = alignedAt(tileset, map);
  const [toRight, down] = asideOf(object, tileset).map(length => length * scale);
  const tinted = layer.tint ? image => tints.of(image, layer.tint) : null;
  drawTile(pen, tilesets, object.gid, toRight - left * width, down - top * height, width, height, tinted, map.isHexagonal);
}

// ---- texts
function paintText(pen, object, scale) {
  const { text } = object;
  const [width, height] = [(object.width ?? 0) * scale, (object.height ?? 0) * scale];
  const size = (text.pixelsize ?? 16) * scale;
  pen.beginPath();
  pen.rect(0, 0, width, height);
  pen.clip();
  pen.font = `${text.italic ? "italic " : ""}${text.bold ? "bold " : ""}${size}px ${JSON.stringify(text.fontfamily ?? "sans-serif")}, sans-serif`;
  pen.fillStyle = colourOfText(text.color, "#000");
  pen.textBaseline = "alphabetic";
  pen.textAlign = "left";
  const lines = linesAt(pen, text, text.wrap ? width : Infinity, scale);
  const share = { center: 0.5, bottom: 1 }[text.valign] ?? 0;
  const first = (height - lines.length * size * LINE) * share;
  lines.forEach((line, at) => paintLine(pen, text, line, width, first + at * size * LINE, size));
}

function paintLine(pen, text, line, width, top, size) {
  const length = pen.measureText(line).width;
  const left = (width - length) * ({ center: 0.5, right: 1 }[text.halign] ?? 0);
  const thick = Math.max(1, size / 16);
  pen.fillText(line, left, top + size * 0.93);
  if (text.underline) pen.fillRect(left, top + size * 1.03, length, thick);
  if (text.strikeout) pen.fillRect(left, top + size * 0.66, length, thick);
}

// The lines of texts, each as it was measured last: { most, scale, lines }.
const measured = new WeakMap();

function linesAt(pen, text, most, scale) {
  const found = measured.get(text);
  if (found?.most === most && found.scale === scale) return found.lines;
  const lines = linesOf(pen, text.text ?? "", most);
  measured.set(text, { most, scale, lines });
  return lines;
}

// The lines of a text, none longer than `most` where it can be cut between words.
function linesOf(pen, text, most) {
  return text.split("\n").flatMap(line => {
    const lines = [""];
    for (const word of line.split(/(?<= )/)) {
      const longer = lines[lines.length - 1] + word;
      if (lines[lines.length - 1] && pen.measureText(longer.trimEnd()).width > most) lines.push(word);
      else lines[lines.length - 1] = longer;
    }
    return lines;
  });
}
