// SPDX-License-Identifier: MIT OR Apache-2.0
// Where the hand puts objects: at any pixel, or on a grid of cells or of half cells.

// Each kind with how it is told, and how many cells its grid is wide and high; null for none.
export const SNAPPINGS = { none: ["none", null], half: ["half cells", 1 / 2], cell: ["cells", 1] };

// Ctrl turns it round, as in Tiled: to cells from none, and to none from any grid.
function kindOf(snapping, event) {
  if (!event?.ctrlKey && !event?.metaKey) return snapping;
  return snapping === "none" ? "cell" : "none";
}

// The grid for an event, as objects count: how wide and high its parts are; null where there is none.
export function gridOf({ map, snapping }, event) {
  const [, cells] = SNAPPINGS[kindOf(snapping, event)];
  return cells && map.projection.side.map(length => length * cells);
}

// The same of a press by keys, which is in the middle of a cell.
export const gridOfKeys = ({ map }) => map.projection.side.map(length => length / 2);

// A length at a line of a grid, or at a whole pixel.
export const snapped = (at, side) => (side ? Math.round(Math.round(at / side) * side) : Math.round(at));
