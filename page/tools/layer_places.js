// SPDX-License-Identifier: MIT OR Apache-2.0
// Where layers stand, in groups or in none, and where each may go.
import { MAX_GROUPS } from "../../js/limits.js";

const nameOf = layer => layer.data.name || "(no name)";

// How many groups stand around what is in a group; in none, where that is null.
const depthIn = group => (group ? group.depth + 1 : 0);

// Whether a layer is another one, or stands in it.
export const isWithin = (layer, other) => layer !== null && (layer === other || isWithin(layer.group, other));

// A layer with all that is in it.
export const wholeOf = (map, layer) => map.layers.filter(each => isWithin(each, layer));

// Those of a group, or of no group where it is null, from the lowest one on.
export const layersIn = (map, group) => map.layers.filter(each => each.group === group);

// The layer above another one in its group, by 1, or below it, by -1; null where there is none.
export const besides = (map, layer, by) => map.layers.find(each => each.group === layer.group && each.place === layer.place + by) ?? null;

// Why a layer cannot go into a group, or out of all groups where that is null; "" where it can. `more` groups come around it there.
export function whyNotInto(map, layer, group, more = 0) {
  if (group && isWithin(group, layer)) return `${nameOf(layer)} cannot go into itself.`;
  const deeper = depthIn(group) + more - layer.depth;
  const isTooDeep = ({ type, depth }) => depth + deeper > (type === "group" ? MAX_GROUPS - 1 : MAX_GROUPS);
  return wholeOf(map, layer).some(isTooDeep) ? `At most ${MAX_GROUPS} groups stand in one another.` : "";
}

// The line that moves a layer to a place, from 0, among the other layers of a group, or among those in no group.
export function lineTo(layer, group, place) {
  return layer.group === group ? `layer move ${layer.id} ${place}` : `layer into ${layer.id} ${group?.id ?? 0} ${place}`;
}

// Where a layer goes that leaves its group: below that. null where it stands in none.
export const outOf = layer => layer.group && { group: layer.group.group, place: layer.group.place };

// Where a layer goes that enters a group beside it: to the bottom of the one above it, or else on top of the one below. null where no group
// stands there.
export function intoBeside(map, layer) {
  const [above, below] = [1, -1].map(by => besides(map, layer, by));
  if (above?.type === "group") return { group: above, place: 0 };
  return below?.type === "group" ? { group: below, place: layersIn(map, below).length } : null;
}
