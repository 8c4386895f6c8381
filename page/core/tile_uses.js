// SPDX-License-Identifier: MIT OR Apache-2.0
// Which tiles of its tilesets the active map uses, how often, and where: in cells, and as objects. It is counted where it is asked for, and
// anew behind lines.
import { TILE } from "./tile_numbers.js";

const nameOf = layer => layer.data.name || "(no name)";
const counted = (count, one) => `${count.toLocaleString("en-US")} ${one}${count === 1 ? "" : "s"}`;

// How often each number stands in a layer, without its flips.
function countsIn(map, layer) {
  const counts = new Map();
  const values = layer.isTiles ? map.cells(layer.id, 0, 0, map.width, map.height) : (layer.data.objects ?? []).map(each => each.gid ?? 0);
  for (const value of values) {
    const tile = value & TILE;
    if (tile) counts.set(tile, (counts.get(tile) ?? 0) + 1);
  }
  return counts;
}

export class TileUses {
  constructor(editor) {
    Object.assign(this, { editor, known: null });
    for (const name of ["done", "map"]) editor.addEventListener(name, () => (this.known = null));
  }

  // The layers that have tiles, each with how often it has which: [{ layer, counts }].
  get all() {
    const { map } = this.editor;
    const isAny = layer => layer.isTiles || layer.data.objects;
    return (this.known ??= map ? map.layers.filter(isAny).map(layer => ({ layer, counts: countsIn(map, layer) })) : []);
  }

  // How often the map has a tile, by its number.
  of(number) {
    return this.all.reduce((sum, { counts }) => sum + (counts.get(number) ?? 0), 0);
  }

  // Where the map has tiles with numbers from one up to another, in words of each layer: `12 cells of Ground`.
  where(first, end) {
    const countOf = counts => [...counts].reduce((sum, [number, count]) => sum + (number >= first && number < end ? count : 0), 0);
    const found = this.all.map(({ layer, counts }) => [countOf(counts), layer]).filter(([count]) => count > 0);
    return found.map(([count, layer]) => `${counted(count, layer.isTiles ? "cell" : "object")} of ${nameOf(layer)}`);
  }
}
