// SPDX-License-Identifier: MIT OR Apache-2.0
// What a map has that the page does not draw, or draws otherwise than Tiled, in words.
import { MOST_PIXELS, grouped } from "../files/image_files.js";
import { MOST_WHOLE } from "./overlay.js";
import { LONGEST_TEXT } from "../files/members.js";
import { cornersOf } from "./object_shapes.js";
import { MOST_CORNERS } from "./shape_painter.js";

// How many of a kind are named.
const MOST_NAMED = 3;

function* objectsOf(map) {
  for (const layer of map.layers) yield* layer.data.objects ?? [];
}

const some = (all, test) => [...all].some(test);

// The first of some names, and how many more there are.
function listOf(names, count = names.length) {
  const more = count - Math.min(MOST_NAMED, names.length);
  return `${names.slice(0, MOST_NAMED).join(", ")}${more > 0 ? ` and ${grouped(more)} more` : ""}`;
}

// Words for what counts as not there, since it is of another kind than Tiled writes.
function oddWords(all) {
  const named = all.flatMap(each => each.named.slice(0, MOST_NAMED)).map(([member, words]) => `${member} (it must be ${words})`);
  return listOf(named, all.reduce((sum, each) => sum + each.count, 0));
}

// Words for objects of which a part is drawn.
function objectWords(map) {
  const count = map.layers.reduce((sum, layer) => sum + (layer.data.objects?.length ?? 0), 0);
  return [
    ["texts in their own fonts", some(objectsOf(map), object => object.text)],
    [`the rest of texts of more than ${grouped(LONGEST_TEXT)} letters, or of many texts`, map.odd.isCut],
    [`some of more than ${grouped(MOST_CORNERS)} corners`, some(objectsOf(map), object => cornersOf(object)?.length > MOST_CORNERS)],
    [`shapes and names where more than ${grouped(MOST_WHOLE)} objects are seen`, count > MOST_WHOLE],
  ];
}

// Words for images: those that have no place, and those that are wrong.
function imageWords(tilesets, images) {
  const past = [...new Set([...tilesets.past, ...images.past])];
  return [
    [`the images ${listOf([...images.missing])}`, images.missing.size > 0],
    ...[...images.wrong].slice(0, MOST_NAMED).map(([path, words]) => [`the image ${path}, which ${words}`, true]),
    [`images past ${grouped(MOST_PIXELS)} pixels together: ${listOf(past)}`, past.length > 0],
    ["tints, for which its images have too many pixels", images.tints.isPast],
  ];
}

// The words for a map with its tilesets and the images of its layers; none where all is drawn as Tiled does.
export function undrawnFeatures(map, tilesets, images) {
  if (!map) return [];
  const isMoved = layer => [layer.data.parallaxx, layer.data.parallaxy].some(part => part !== undefined && part !== 1);
  const odd = [map.odd, ...tilesets.odd].filter(each => each.count > 0);
  const found = [
    ["parallax", some(map.layers, isMoved)],
    ["animations (their first picture stands)", some(tilesets.all, set => set.members.frames)],
    ...objectWords(map),
    ...imageWords(tilesets, images),
    ["modes of blending", some(map.layers, layer => layer.data.mode && layer.data.mode !== "normal")],
    [oddWords(odd), odd.length > 0],
  ];
  return found.filter(([, isThere]) => isThere).map(([words]) => words);
}
