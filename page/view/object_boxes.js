// SPDX-License-Identifier: MIT OR Apache-2.0
// Boxes of the screen, [left, top, right, bottom] in its pixels: of those in which objects are drawn only some are drawn anew.

// From how many boxes on all is drawn anew.
const MANY = 8;

// Where an object's own place stands on the screen.
export function placeOnScreen(view, object, layer) {
  const [x, y] = view.map.projection.place(object.x ?? 0, object.y ?? 0);
  return [view.originX + (x + layer.offsetX) * view.scale, view.originY + (y + layer.offsetY) * view.scale];
}

export function areTouching([left, top, right, bottom], other) {
  return left < other[2] && other[0] < right && top < other[3] && other[1] < bottom;
}

const around = (one, other) => [Math.min(one[0], other[0]), Math.min(one[1], other[1]), Math.max(one[2], other[2]), Math.max(one[3], other[3])];

// Boxes in whole pixels as far as they are on a canvas, where those that touch are one: null where they are many.
export function boxesOn({ width, height }, boxes) {
  let apart = [];
  for (const [left, top, right, bottom] of boxes) {
    let box = [Math.max(0, Math.floor(left)), Math.max(0, Math.floor(top)), Math.min(width, Math.ceil(right)), Math.min(height, Math.ceil(bottom))];
    if (box[0] >= box[2] || box[1] >= box[3]) continue;
    for (let near = [box]; near.length;) {
      near = apart.filter(each => areTouching(each, box));
      apart = apart.filter(each => !near.includes(each));
      box = near.reduce(around, box);
    }
    apart.push(box);
  }
  return apart.length < MANY ? apart : null;
}
