// SPDX-License-Identifier: MIT OR Apache-2.0
// What a drag of an object or of one of its handles makes of it, and the lines of that.
import { memberLine, membersLine } from "../core/member_lines.js";
import { gridOf, snapped } from "./snapping.js";
import { resized, settable, turnedBy, withCorner, withoutCorner } from "../view/object_handles.js";

const isAtCorner = handle => handle?.startsWith("corner") || handle?.startsWith("edge");

// The members that a drag gives an object, on the grid where there is one. A drag is { object, layer, handle, from }, and `place` is where the
// hand is.
export function goalOf(bench, drag, place, event) {
  const { object, layer, handle, from } = drag;
  if (handle === "turn") return turned(bench, drag, place, event);
  if (isAtCorner(handle)) return cornered(bench, drag, place, event);
  const grid = gridOf(bench, event);
  const snaps = [0, 1].map(axis => at => snapped(at, grid?.[axis]));
  if (handle) {
    const [[toX, toY], [fromX, fromY]] = [place, from].map(at => bench.overlay.ownPlace(object, layer, at.pixelX, at.pixelY));
    return resized(object, handle, [toX - fromX, toY - fromY], snaps);
  }
  // Where the hand has not moved it one way, it keeps the whole part that it has there, and so its fraction.
  const moved = (at, by, snap) => (by === 0 && !grid ? Math.floor(at) : snap(at + by));
  return { x: moved(object.x ?? 0, place.pixelX - from.pixelX, snaps[0]), y: moved(object.y ?? 0, place.pixelY - from.pixelY, snaps[1]) };
}

function turned(bench, { object, layer, from }, place, event) {
  const { map, overlay } = bench;
  const isStepped = Boolean(event?.ctrlKey || event?.metaKey);
  const [first, last] = [from, place].map(({ pixelX, pixelY }) => [pixelX, pixelY]);
  const { rotation, x, y } = turnedBy(overlay.shapeOf(object), layer, first, last, isStepped, map.projection);
  return { rotation, x, y };
}

function cornered(bench, { object, layer, handle }, { pixelX, pixelY }, event) {
  const grid = gridOf(bench, event);
  const on = grid ? [pixelX, pixelY].map((at, axis) => snapped(at, grid[axis])) : [pixelX, pixelY];
  return withCorner(object, handle, bench.overlay.ownPlace(object, layer, ...on).map(settable));
}

// The line that gives an object these corners, with the name of its step.
function cornerStep({ id }, goal, name) {
  const [[member, corners]] = Object.entries(goal);
  return { name, lines: [memberLine(`object:${id}`, member, corners)] };
}

export function removedCorner(bench, object, handle) {
  const goal = withoutCorner(object, handle);
  return goal ? cornerStep(object, goal, "Remove Corner") : bench.say(object.polygon ? "A polygon has at least 3 corners." : "A line has at least 2 corners.");
}

// The step of a drag of an object with which others go along.
export function stepForAll(object, goal, others) {
  const by = name => goal[name] - Math.floor(object[name] ?? 0);
  const [byX, byY] = [by("x"), by("y")];
  const lines = [{ object }, ...others].map(({ object: { id, x = 0, y = 0 } }) => `object move ${id} ${Math.floor(x) + byX} ${Math.floor(y) + byY}`);
  return { lines: byX || byY ? lines : [], name: "Move Objects" };
}

// The step of a drag: its lines, and a name where it has to be told.
export function stepFor({ object, handle }, goal) {
  const owner = `object:${object.id}`;
  if (isAtCorner(handle)) return cornerStep(object, goal, handle.startsWith("edge") ? "Add Corner" : "Move Corner");
  if (handle === "turn") return { name: "Rotate Object", lines: goal.rotation === (object.rotation ?? 0) ? [] : [membersLine(owner, goal)] };
  const { x, y, width, height } = goal;
  const whole = name => Math.floor(object[name] ?? 0);
  const isMoved = x !== whole("x") || y !== whole("y");
  const isResized = width !== undefined && (width !== whole("width") || height !== whole("height"));
  const lines = [
    ...(isResized ? [`object resize ${object.id} ${width} ${height}`] : []),
    ...(isMoved ? [`object move ${object.id} ${x} ${y}`] : []),
  ];
  return { lines, name: lines.length === 2 ? "Resize Object" : null };
}
