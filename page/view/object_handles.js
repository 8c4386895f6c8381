// SPDX-License-Identifier: MIT OR Apache-2.0
// The handles of an object, and what a drag at one makes of it: those at its edges resize it, one above turns it, and a polygon or a line has
// one at each corner, which moves that, and one between two, which adds a corner.
import { STANDING, boxOf, cornersOf, isSpot, mapPlace, middleOf, placeWith } from "./object_shapes.js";

// How far from the box the handles stand, and the one that turns it; how far from one the hand may be, and a finger; and from which length on
// an edge has one in its middle: in pixels of the screen.
const ASIDE = 7;
const ABOVE = 34;
const NEAR = { hand: 6, finger: 22 };
const LONG_EDGE = 30;
// Of so many corners each has a handle.
const MOST_CORNERS = 300;
// To which angles Ctrl turns, in degrees.
const ANGLE = 15;
// The handles by the edges that they move, from the upper left one to the lower right one.
const HANDLES = ["nw", "n", "ne", "w", "e", "sw", "s", "se"];

// The handles that an object has: of a turned one only those that leave its place where it is, and of a tile that does not stand on its
// place none.
function handlesOf(object) {
  if (cornersOf(object) || object.point || (object.gid && String(object.aligned ?? STANDING) !== String(STANDING))) return [];
  if (!object.rotation) return HANDLES;
  return object.gid ? ["n", "ne", "e"] : ["e", "s", "se"];
}

// The handles at the edges of an object.
function edgePlaces(object, scale) {
  const [left, top, right, bottom] = boxOf(object);
  const aside = ASIDE / scale;
  const isLong = { n: (right - left) * scale >= LONG_EDGE, w: (bottom - top) * scale >= LONG_EDGE };
  const isShown = name => name.length === 2 || (name === "n" || name === "s" ? isLong.n : isLong.w);
  return handlesOf(object).filter(isShown).map(name => [
    name,
    name.includes("w") ? left - aside : name.includes("e") ? right + aside : (left + right) / 2,
    name.includes("n") ? top - aside : name.includes("s") ? bottom + aside : (top + bottom) / 2,
  ]);
}

// The one that turns it.
function turnPlaces(object, scale) {
  if (object.point || isSpot(object)) return [];
  const [left, top, right] = boxOf(object);
  return [["turn", (left + right) / 2, top - ABOVE / scale]];
}

// Those of its corners, and those between two that are far apart.
function cornerPlaces(object, scale) {
  const corners = cornersOf(object);
  if (!corners || corners.length > MOST_CORNERS) return [];
  const between = corners.flatMap(({ x, y }, at) => {
    const next = corners[at + 1] ?? (object.polygon ? corners[0] : null);
    const isLong = next && Math.hypot(next.x - x, next.y - y) * scale >= LONG_EDGE;
    return isLong ? [[`edge ${at}`, (x + next.x) / 2, (y + next.y) / 2]] : [];
  });
  return [...corners.map(({ x, y }, at) => [`corner ${at}`, x, y]), ...between];
}

// The handles of an object with their places in its own coordinates, drawn at a scale: [name, x, y].
export const handlePlaces = (object, scale) => [...cornerPlaces(object, scale), ...edgePlaces(object, scale), ...turnPlaces(object, scale)];

// The handle of an object at a place in its own coordinates, the nearest one, or null. A finger within a small object, to whose handles it is
// near everywhere, is at none where the middle is nearer.
export function handleAt(object, [atX, atY], scale, isFinger = false) {
  const near = (isFinger ? NEAR.finger : NEAR.hand) / scale;
  const far = ([, left, top]) => Math.max(Math.abs(atX - left), Math.abs(atY - top));
  const found = handlePlaces(object, scale).filter(each => far(each) <= near);
  const nearest = found.reduce((one, each) => (one === null || far(each) < far(one) ? each : one), null);
  const [left, top, right, bottom] = boxOf(object);
  const isWithin = atX > left && atX < right && atY > top && atY < bottom;
  const isAtMiddle = isFinger && nearest && isWithin && far(["", ...middleOf(object)]) < far(nearest);
  return isAtMiddle ? null : nearest?.[0] ?? null;
}

// One side of an object behind a drag: its first edge and its length in whole pixels. `moved` tells which edge is moved, by how much.
function resizedSide(from, length, moved, by, snap) {
  if (!moved || by === 0) return [Math.floor(from), Math.floor(length)];
  if (moved === "first") {
    const first = Math.min(snap(from + by), Math.floor(from + length) - 1);
    return [first, Math.max(1, Math.round(from + length - first))];
  }
  return [Math.floor(from), Math.max(1, Math.round(snap(from + length + by) - from))];
}

// What a drag at a handle makes of an object, in whole pixels: { x, y, width, height }. `snaps` put an edge where it may be, across and down.
export function resized(object, handle, [byX, byY], snaps) {
  const [x, y, width, height] = [object.x ?? 0, object.y ?? 0, object.width ?? 0, object.height ?? 0];
  const movedX = handle.includes("w") ? "first" : handle.includes("e") ? "last" : null;
  const movedY = handle.includes("n") ? "first" : handle.includes("s") ? "last" : null;
  const [left, wide] = resizedSide(x, width, movedX, byX, snaps[0]);
  if (!object.gid) {
    const [top, high] = resizedSide(y, height, movedY, byY, snaps[1]);
    return { x: left, y: top, width: wide, height: high };
  }
  // A tile's place is at its lower edge.
  const [top, high] = resizedSide(y - height, height, movedY, byY, snaps[1]);
  return { x: left, y: movedY === "last" && byY !== 0 ? top + high : Math.floor(y), width: wide, height: high };
}

// ---- turning
// A length as it is set, to the thousandth of a pixel.
export const settable = at => Math.round(at * 1000) / 1000;

const degreesOf = ([x, y], [fromX, fromY]) => Math.atan2(y - fromY, x - fromX) * 180 / Math.PI;

// What a drag of the handle that turns makes of an object, whose middle stays: { rotation, x, y }. `shape` is the object with how it stands at
// its place; `from` and `to` are places of the map.
export function turnedBy(shape, layer, from, to, isStepped, projection) {
  const middle = middleOf(shape);
  const at = mapPlace(shape, layer, middle, projection);
  const [centre, first, last] = [at, from, to].map(each => projection.place(...each));
  const before = shape.rotation ?? 0;
  const angle = before + degreesOf(last, centre) - degreesOf(first, centre);
  const rotation = ((isStepped ? Math.round(angle / ANGLE) * ANGLE : Math.round(angle)) + 720) % 360;
  const [x, y] = placeWith({ ...shape, rotation }, layer, middle, ...at, projection);
  return rotation === before ? { rotation, x: shape.x, y: shape.y } : { rotation, x: settable(x), y: settable(y) };
}

// ---- corners
// The corners of an object behind a drag of a handle to a place in its own coordinates: one is moved, or comes between two.
export function withCorner(object, handle, [x, y]) {
  const [kind, at] = handle.split(" ");
  const corners = [...cornersOf(object)];
  corners.splice(kind === "edge" ? Number(at) + 1 : Number(at), kind === "edge" ? 0 : 1, { x, y });
  return { [object.polygon ? "polygon" : "polyline"]: corners };
}

// The same without a corner; null where too few would be left.
export function withoutCorner(object, handle) {
  const corners = cornersOf(object);
  const at = Number(handle.split(" ")[1]);
  const least = object.polygon ? 3 : 2;
  return corners.length > least ? { [object.polygon ? "polygon" : "polyline"]: corners.toSpliced(at, 1) } : null;
}
