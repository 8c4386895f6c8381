// SPDX-License-Identifier: MIT OR Apache-2.0
// The tasks of the lesson. A part has a name, words of what to do, where that is, and whether it is done; `needs` are looked at before it, and
// the first one that is not met is told in its place.
import { byId } from "./dom.js";

// Tiles of the town.
const [PATH, WALL, DOOR, ROOF] = [4, 10, 12, 26];
// Where things go, as [column, row, width, height]: all of these cells are grass.
const PATH_CELLS = [21, 20, 6, 1];
const ROOF_CELLS = [23, 3, 5, 3];
const WALL_CELLS = [23, 6, 5, 1];
const DOOR_CELL = [25, 6, 1, 1];

const named = (page, name) => page.bench.map.layers.find(layer => layer.data.name === name && layer.isTiles);
const rowOf = (page, name) => document.querySelector(`#layers li[data-layer="${named(page, name)?.id}"]`);

// The cells of a layer in a box.
function cellsOf(page, name, box) {
  const layer = named(page, name);
  return layer ? Array.from(page.bench.map.cells(layer.id, ...box)) : [];
}

const isAll = (page, name, box, value) => cellsOf(page, name, box).every(each => each === value);

// Where a box of cells is in the window.
function boxOf({ view }, [x, y, width, height]) {
  const [first, last, next] = [view.middleOf(x, y), view.middleOf(x + width - 1, y + height - 1), view.middleOf(x + 1, y + 1)];
  const [across, down] = [(next[0] - first[0]) / 2, (next[1] - first[1]) / 2];
  return { left: first[0] - across, right: last[0] + across, top: first[1] - down, bottom: last[1] + down };
}

// Where a tile is in the palette, or the head of that where it is folded.
function tileBox({ palette }, value) {
  if (!palette.tileset) return null;
  const panel = byId("panel-tiles");
  if (panel.matches(".folded")) return panel.querySelector("h2");
  const tile = value - palette.tileset.first;
  const frame = byId("palette-size").getBoundingClientRect();
  const [x, y] = palette.spotOf(tile);
  const [left, top] = [frame.left + x, frame.top + y];
  return { left, top, right: left + palette.side, bottom: top + palette.side };
}

// ---- what a part needs
const tool = (name, words) => ({ words, at: () => byId(`tool-${name}`), isMet: ({ tools }) => tools.name === name });
const layer = name => ({ words: `Click the layer ${name}.`, at: page => rowOf(page, name), isMet: ({ bench }) => bench.layer?.data.name === name });
const small = { words: "Set the brush to 1 × 1: Shift+1.", at: () => byId("brush-size"), isMet: ({ bench }) => bench.brushSize === 1 };
const free = { words: "Drop the selection: Ctrl+Shift+A.", at: () => null, isMet: ({ bench }) => !bench.map.selected };

function tile(value, words) {
  const isMet = ({ bench }) => bench.stamp.values.length === 1 && bench.stamp.values[0] === value;
  return { words, at: page => tileBox(page, value), isMet };
}

const brush = tool("brush", "Take the brush: the key B.");
const rectangle = tool("rectangle", "Take the tool Rectangle: the key P.");

// A part that draws one tile into a box of a layer.
function drawn({ name, words, layerName, box, value, needs }) {
  return { name, words, needs: [layer(layerName), free, ...needs], at: page => boxOf(page, box), isDone: page => isAll(page, layerName, box, value) };
}

const stand = ({ editor }) => editor.stand();

export const TASKS = [
  {
    title: "draw a path",
    end: "The path is one step: see the list Steps.",
    parts: [
      { name: "the tile", ...tile(PATH, "Click the tile of the path."), isDone: page => tile(PATH, "").isMet(page) },
      drawn({
        name: "the path", words: "Press at the street and drag to the beach.", layerName: "Ground", box: PATH_CELLS, value: PATH,
        needs: [tile(PATH, "Click the tile of the path."), brush, small],
      }),
    ],
  },
  {
    title: "a house as one step",
    end: "Roof, wall and door are one step: a macro.",
    parts: [
      { name: "begin", words: "Click Begin macro: what follows is one step.", at: () => byId("macro"), isDone: page => stand(page).depth > 0 },
      drawn({
        name: "the roof", words: "Drag from corner to corner.", layerName: "Cottages", box: ROOF_CELLS, value: ROOF,
        needs: [tile(ROOF, "Click the tile of the roof."), rectangle],
      }),
      drawn({
        name: "the wall", words: "Drag along the row below the roof.", layerName: "Cottages", box: WALL_CELLS, value: WALL,
        needs: [tile(WALL, "Click the tile of the wall."), rectangle],
      }),
      drawn({ name: "the door", words: "Click in the middle of the wall.", layerName: "Cottages", box: DOOR_CELL, value: DOOR, needs: [tile(DOOR, "Click the tile of the door.")] }),
      { name: "end", words: "Click End macro.", at: () => byId("macro"), isDone: page => stand(page).depth === 0 },
    ],
  },
  {
    title: "undo it all",
    end: "All is there again. What you drew can always be undone.",
    parts: [
      { name: "the house", words: "Undo the house at once: Ctrl+Z.", at: () => byId("undo"), isDone: (page, start) => stand(page).index < start.index },
      { name: "all", words: "Undo the rest: Ctrl+Z, or click the first row of Steps.", at: () => document.querySelector("#steps li"), isDone: page => stand(page).index === 0 },
      {
        name: "and back", words: "Redo all: Ctrl+Shift+Z, or click the last row of Steps.", at: () => document.querySelector("#steps > :last-child > li:last-child"),
        isDone: page => stand(page).index === stand(page).count && stand(page).count > 0,
      },
    ],
  },
];
