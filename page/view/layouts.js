// SPDX-License-Identifier: MIT OR Apache-2.0
// How each map is shown and worked on: its zoom, its place, its layer, the tool, the stamp and the panels. That is kept for as long as this
// tab lives, also where the page is loaded anew.
import { withUsedSets } from "../core/tile_numbers.js";
import { SHAPES } from "../tools/insert_tool.js";
import { SNAPPINGS } from "../tools/snapping.js";

const STORED = "roskevad-layouts";
// The largest stamp that is stored, the longest text of its tilesets, how many maps are, and how long behind a change that is done.
const LARGEST_STAMP = 1024;
const LONGEST_SETS = 16_384;
const MOST_MAPS = 100;
const LATER = 300;

const isNumber = Number.isFinite;

const tilesOf = ({ stamp, tileset, side }) => ({ stamp, tileset, side });

function isStamp(stamp) {
  return Boolean(stamp) && stamp.width > 0 && stamp.values?.length === stamp.width * stamp.height && stamp.values.every(isNumber);
}

const areSets = sets => Array.isArray(sets) && sets.every(set => isNumber(set?.first) && typeof set.key === "string" && typeof set.name === "string");

// A stamp as it is stored. A large one is not. One of an earlier version, which has not been taken up, stays as it is.
function storedStamp(stamp) {
  if (!stamp || stamp.values.length > LARGEST_STAMP) return null;
  if (!stamp.sets) return stamp;
  const stored = withUsedSets(stamp);
  return JSON.stringify(stored.sets).length > LONGEST_SETS ? null : stored;
}

export class Layouts {
  // `page` has the parts: bench, editor, view, tools, toolbar, palette, layers, properties, panels.
  constructor(page) {
    // `pending` is what is kept of a map whose tilesets are still being read.
    Object.assign(this, { page, editor: page.editor, document: null, timer: null, pending: null });
    this.all = this.stored();
    for (const name of ["chosen", "tool", "stamp", "layout"]) page.bench.addEventListener(name, () => this.keep());
    this.editor.addEventListener("state", () => this.keep());
    addEventListener("pagehide", () => {
      this.keep();
      this.store();
    });
  }

  keyOf(document) {
    const path = this.editor.openDocuments.fileOf(document)?.path;
    return path === undefined ? `map ${document}` : `file ${path}`;
  }

  // ---- keeping
  // Keeps how the map is shown that stands there.
  keep() {
    if (this.document === null || this.editor.openDocuments.active !== this.document) return;
    this.put();
    clearTimeout(this.timer);
    this.timer = setTimeout(() => this.store(), LATER);
  }

  put() {
    const key = this.keyOf(this.document);
    this.all.delete(key);
    this.all.set(key, this.now());
  }

  now() {
    const { bench, view, tools, palette, layers, properties, panels } = this.page;
    return {
      view: [view.scale, view.originX, view.originY], layer: bench.layerId, tool: tools.name, brush: bench.brushSize, stamp: bench.hand,
      shape: tools.all.insert.shape, snapping: bench.snapping, tileset: palette.first, side: palette.side, folded: [...layers.folded], owner: properties.kind,
      panels: panels.state(), ...(this.pending && tilesOf(this.pending)),
    };
  }

  // A map that has no file is kept for as long as it is open.
  store() {
    const open = new Set([...this.editor.openDocuments.byName.keys()].map(document => this.keyOf(document)));
    for (const key of this.all.keys()) if (key.startsWith("map ") && !open.has(key)) this.all.delete(key);
    const last = [...this.all].slice(-MOST_MAPS).map(([key, each]) => [key, { ...each, stamp: storedStamp(each.stamp) }]);
    try {
      sessionStorage.setItem(STORED, JSON.stringify(last));
    } catch (fault) {
      console.warn(`how maps are shown is not kept: ${fault.message}`);
    }
  }

  stored() {
    try {
      return new Map(JSON.parse(sessionStorage.getItem(STORED) ?? "[]"));
    } catch {
      return new Map();
    }
  }

  // ---- showing
  // Another map is shown from now on. Gives what is kept of it, or null; its tiles are taken later, once its tilesets are there.
  enter(document) {
    if (this.document !== null) this.put();
    const kept = document === null ? null : this.all.get(this.keyOf(document)) ?? null;
    this.document = null;
    this.page.layers.folded = new Set();
    this.page.bench.layerId = null;
    this.pending = kept !== null && this.isTaken(kept) ? kept : null;
    this.document = document;
    return this.pending;
  }

  // Shows a map so. What another version of the page has kept may be unlike.
  isTaken(kept) {
    const { bench, view, tools, toolbar, layers, properties, panels } = this.page;
    try {
      panels.take(kept.panels);
      layers.folded = new Set(kept.folded);
      bench.layerId = kept.layer;
      if (Object.hasOwn(SNAPPINGS, kept.snapping)) bench.snapping = kept.snapping;
      if (Object.hasOwn(SHAPES, kept.shape)) tools.all.insert.shape = kept.shape;
      if (Object.hasOwn(tools.all, kept.tool)) tools.choose(kept.tool);
      toolbar.setBrush(kept.brush);
      properties.choose(kept.owner);
      if (!kept.view.every(isNumber)) return false;
      [view.scale, view.originX, view.originY] = kept.view;
      return true;
    } catch (fault) {
      console.warn(`how a map was shown is not taken up: ${fault.message}`);
      return false;
    }
  }

  // The stamp, and the tileset that the palette shows. Gives why the stamp is put down, or "".
  enterTiles(kept) {
    const { palette, tilesets } = this.page;
    this.pending = null;
    const why = this.enterStamp(kept.stamp);
    palette.zoomTo(kept.side);
    if (kept.tileset !== palette.first && tilesets.all.some(set => set.first === kept.tileset)) palette.choose(kept.tileset);
    return why;
  }

  // Takes the stamp that a map had. What an earlier version of the page has kept are numbers without tilesets: those of this map alone.
  enterStamp(stamp) {
    const { bench } = this.page;
    if (!isStamp(stamp)) return "";
    const { carried } = bench;
    const { why } = stamp.isUsual ? carried.takeUsual() : carried.carry(areSets(stamp.sets) ? stamp : carried.numbers.copyOf(stamp));
    bench.tell("stamp");
    return why;
  }
}
