// SPDX-License-Identifier: MIT OR Apache-2.0
// The shapes of objects, and what is under the hand. Lengths are pixels of the map.
//
// An object's own coordinates begin at its place, and are turned and slanted as it is drawn. `aligned` tells how far a tile reaches to the
// left of its place and above it, as shares of its size.

// How near to a line and to an area the hand is on it, in pixels of the screen.
const NEAR_LINE = 6;
const NEAR_AREA = 1;

function frameOf(corners) {
  const frame = [Infinity, Infinity, -Infinity, -Infinity];
  for (const { x, y } of corners) {
    [frame[0], frame[1]] = [Math.min(frame[0], x), Math.min(frame[1], y)];
    [frame[2], frame[3]] = [Math.max(frame[2], x), Math.max(frame[3], y)];
  }
  return frame;
}

// The corners of a polygon or of a line; null where it has none.
export function cornersOf(object) {
  const corners = object.polygon ?? object.polyline;
  return corners?.length ? corners : null;
}

// Whether it has no size: a point, or a rectangle of none.
export const isSpot = object => !cornersOf(object) && !object.width && !object.height;

// What an object is, in words: its shape, and how it is turned.
export function wordsOfShape(object) {
  const corners = cornersOf(object);
  const area = object.ellipse ? "ellipse" : object.point ? "point" : isSpot(object) ? "rectangle without a size" : "rectangle";
  const shape = object.gid ? "tile" : object.text ? "text" : corners ? `${object.polygon ? "polygon" : "line"} with ${corners.length} corners` : area;
  return object.rotation ? `${shape}, turned by ${object.rotation}°` : shape;
}

// A tile stands on its place, but where its tileset or the map says otherwise.
export const STANDING = [0, 1];

// The box of an object: [left, top, right, bottom] in its own coordinates.
export function boxOf(object) {
  const corners = cornersOf(object);
  if (corners) return frameOf(corners);
  const [width, height] = [object.width ?? 0, object.height ?? 0];
  const [left, up] = object.gid ? object.aligned ?? STANDING : [0, 0];
  return [-left * width, -up * height, (1 - left) * width, (1 - up) * height];
}

// A vector turned by an angle in degrees.
function turned(x, y, degrees) {
  const angle = degrees * Math.PI / 180;
  return [x * Math.cos(angle) - y * Math.sin(angle), x * Math.sin(angle) + y * Math.cos(angle)];
}

// A place of the map in an object's own coordinates.
export function ownPlace(object, layer, x, y, projection) {
  const [[atX, atY], [fromX, fromY]] = [projection.place(x, y), projection.place(object.x ?? 0, object.y ?? 0)];
  const [right, down] = turned(atX - layer.offsetX - fromX, atY - layer.offsetY - fromY, -(object.rotation ?? 0));
  const [a, b, c, d] = object.gid ? [1, 0, 0, 1] : projection.matrix;
  return [(d * right - c * down) / (a * d - b * c), (a * down - b * right) / (a * d - b * c)];
}

// A place in an object's own coordinates as one of the map.
export function mapPlace(object, layer, [ownX, ownY], projection) {
  const [a, b, c, d] = object.gid ? [1, 0, 0, 1] : projection.matrix;
  const [right, down] = turned(a * ownX + c * ownY, b * ownX + d * ownY, object.rotation ?? 0);
  const [left, top] = projection.place(object.x ?? 0, object.y ?? 0);
  return projection.named(left + layer.offsetX + right, top + layer.offsetY + down);
}

// The place of an object of which a place in its own coordinates lies at a place of the map.
export function placeWith(object, layer, [ownX, ownY], x, y, projection) {
  const [a, b, c, d] = object.gid ? [1, 0, 0, 1] : projection.matrix;
  const [right, down] = turned(a * ownX + c * ownY, b * ownX + d * ownY, object.rotation ?? 0);
  const [left, top] = projection.place(x, y);
  return projection.named(left - layer.offsetX - right, top - layer.offsetY - down);
}

// The middle of an object in its own coordinates.
export function middleOf(object) {
  const [left, top, right, bottom] = boxOf(object);
  return [(left + right) / 2, (top + bottom) / 2];
}

// ---- what is under the hand
function distanceToEdge(x, y, from, to) {
  const [wide, high] = [to.x - from.x, to.y - from.y];
  const length = wide * wide + high * high;
  const part = length ? Math.max(0, Math.min(1, ((x - from.x) * wide + (y - from.y) * high) / length)) : 0;
  return Math.hypot(x - from.x - part * wide, y - from.y - part * high);
}

function isNearEdge(x, y, corners, isClosed, near) {
  return corners.some((corner, at) => {
    const last = corners[at - 1] ?? (isClosed ? corners[corners.length - 1] : corner);
    return distanceToEdge(x, y, last, corner) <= near;
  });
}

function isInPolygon(x, y, corners) {
  let isIn = false;
  corners.forEach((corner, at) => {
    const last = corners[at - 1] ?? corners[corners.length - 1];
    if ((corner.y > y) !== (last.y > y) && x < (last.x - corner.x) * (y - corner.y) / (last.y - corner.y) + corner.x) isIn = !isIn;
  });
  return isIn;
}

function isInEllipse(x, y, [left, top, right, bottom], near) {
  const [across, down] = [(right - left) / 2 + near, (bottom - top) / 2 + near];
  return ((x - (left + right) / 2) / across) ** 2 + ((y - (top + bottom) / 2) / down) ** 2 <= 1;
}

// Whether a place in its own coordinates is on an object, drawn at a scale.
export function isOn(object, x, y, scale) {
  const [corners, line, area] = [cornersOf(object), NEAR_LINE / scale, NEAR_AREA / scale];
  if (corners) return isNearEdge(x, y, corners, Boolean(object.polygon), line) || (Boolean(object.polygon) && isInPolygon(x, y, corners));
  if (isSpot(object)) return Math.hypot(x, y) <= line;
  const box = boxOf(object);
  if (object.ellipse) return isInEllipse(x, y, box, area);
  return x >= box[0] - area && y >= box[1] - area && x <= box[2] + area && y <= box[3] + area;
}

// How much an object covers; a line covers nothing.
export function areaOf(object) {
  if (object.polyline) return 0;
  if (!object.polygon) return (object.width ?? 0) * (object.height ?? 0);
  const last = at => object.polygon[at - 1] ?? object.polygon[object.polygon.length - 1];
  return Math.abs(object.polygon.reduce((sum, { x, y }, at) => sum + last(at).x * y - x * last(at).y, 0)) / 2;
}
