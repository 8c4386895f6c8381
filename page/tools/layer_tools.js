// SPDX-License-Identifier: MIT OR Apache-2.0
// Which tools can act on the layer in hand.
import { whyNoTiles } from "./barred_layers.js";

// The tools that draw tiles, and those that are about objects.
export const PAINTING = new Set(["brush", "eraser", "fill", "rectangle"]);
const OF_OBJECTS = new Set(["objects", "insert"]);

const isForObjects = layer => layer.type === "objectgroup";

// Why a tool cannot act on a layer of a map, by the kinds of the layers; "" where it can. Whether the layer is hidden or locked is told where
// the hand is, with how to end that.
export function whyNotOn(name, map, layer) {
  if (!map || !layer) return "";
  if (PAINTING.has(name)) return whyNoTiles(map, layer);
  if (name === "objects") return whyNoneToChoose(map, layer);
  return name === "insert" ? whyNotInserted(map, layer) : "";
}

function whyNoneToChoose(map, layer) {
  const isThere = isForObjects(layer) || map.layers.some(each => each.data.objects?.length);
  return isThere ? "" : "This map has no objects. The tool Insert (I) makes one.";
}

// A new object goes into the layer in hand, or else into the only one that takes it.
function whyNotInserted(map, layer) {
  const count = map.layers.filter(isForObjects).length;
  if (isForObjects(layer) || count === 1) return "";
  return count ? "Choose an object layer first." : "Add an object layer first, by 'Add an object layer' below the layers.";
}

// The tool with which a map is opened, by its layer and the tool in hand.
export function toolFor(layer, name) {
  if (layer?.isTiles && OF_OBJECTS.has(name)) return "brush";
  return layer && isForObjects(layer) && PAINTING.has(name) ? "objects" : name;
}
