// SPDX-License-Identifier: MIT OR Apache-2.0
// A small picture of a map that is not open, painted as the page paints an open one.
import { LayerPainter } from "./layer_painter.js";
import { MapImages } from "./map_images.js";
import { MapModel } from "../core/map_model.js";
import { MapView } from "./map_view.js";
import { planeOf } from "../core/plane.js";
import { CellCache } from "./cell_cache.js";
import { Tilesets } from "./tilesets.js";

// How often it is painted anew while images and looks of tiles come, and how long it waits between.
const MOST_TIMES = 40;
const PAUSE = 50;
// The most pixels of its images together.
const MOST_PIXELS = 16 * 1024 * 1024;

// Paints the map of an editor into a canvas, as large as fits there. `isOver` tells whether it is not wanted any more.
export async function sketch(editor, place, path, canvas, isOver) {
  const map = new MapModel(editor.outline(), (...words) => editor.cells(...words), null, planeOf(editor));
  const view = await viewOf(map, place, path, canvas);
  let isLate = true;
  view.tilesets.onLooks = view.images.onImage = () => {
    isLate = true;
  };
  for (let times = 0; times < MOST_TIMES && (isLate || view.images.waiting) && !isOver(); times++) {
    isLate = false;
    view.painter.paint([0, 0, canvas.width, canvas.height]);
    await new Promise(done => setTimeout(done, PAUSE));
  }
  view.images.forget();
  view.tilesets.close();
  return map;
}

// A view of the whole map, without a box of the page and without an editor.
async function viewOf(map, place, path, canvas) {
  const editor = { map, place, openDocuments: { file: { path } } };
  const tilesets = new Tilesets(editor, MOST_PIXELS);
  const images = new MapImages(editor, tilesets);
  await tilesets.take(map);
  const { width, height } = map.projection;
  const scale = Math.min(canvas.width / width, canvas.height / height);
  const view = Object.assign(Object.create(MapView.prototype), { editor, tilesets, images, canvas, scale, hidden: new Set(), cache: new CellCache() });
  view.pen = canvas.getContext("2d");
  view.behind = getComputedStyle(canvas).backgroundColor;
  view.originX = Math.round((canvas.width - width * scale) / 2);
  view.originY = Math.round((canvas.height - height * scale) / 2);
  view.painter = new LayerPainter(view, images);
  view.cache.takeMap(map);
  view.cache.takeBox(view.boxSeen());
  return view;
}
