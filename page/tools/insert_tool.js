// SPDX-License-Identifier: MIT OR Apache-2.0
// The tool that adds objects of a shape: by a drag, by a click, or corner by corner. The new object is chosen, and the tool stays in hand.
import { objectLine } from "../core/member_lines.js";
import { layerForObjects, objectLayer } from "./object_copies.js";
import { isDrag } from "./object_tools.js";
import { gridOf, gridOfKeys, snapped } from "./snapping.js";

const COLOUR = "#ffd34d";
// The shapes, in the order of their buttons, with how each is made. `least` is how many corners one has at least.
export const SHAPES = {
  rectangle: { by: "drag" },
  point: { by: "click" },
  ellipse: { by: "drag" },
  polygon: { by: "corners", least: 3 },
  polyline: { by: "corners", least: 2 },
  tile: { by: "click" },
  text: { by: "drag" },
};
const NAMES = Object.keys(SHAPES);
// What a shape is called in steps and on its button.
export const titleOf = shape => `${shape[0].toUpperCase()}${shape.slice(1)}`;

// A new text, and its size where it is made by a click: as Tiled has them.
const TEXT = { text: "Hello World", wrap: true };
const TEXT_SIZE = [92, 19];
// How near to a corner a click is that ends there, in pixels of the page.
const NEAR = 6;
// What a file has of each object.
const USUAL = { name: "", rotation: 0, type: "", visible: true };

export class InsertTool {
  // `objects` is the tool for objects, which does what keys do with the chosen one; `show` shows anew what the hand is about.
  constructor(bench, objects, show) {
    Object.assign(this, { bench, objects, show, shape: "rectangle", from: null });
    // The corners that stand, in the coordinates of their layer; whether the last one is still held, and how the press ends what is drawn.
    Object.assign(this, { corners: null, layerId: null, isHeld: false, ending: null });
    bench.addEventListener("document", () => this.forget());
    bench.addEventListener("tool", () => bench.view.box.dataset.tool === "insert" || this.forget());
  }

  get by() {
    return SHAPES[this.shape].by;
  }

  get isDragged() {
    return this.by === "drag";
  }

  get isDrawing() {
    return this.corners !== null;
  }

  // Takes a shape, or the one that is so many places behind it.
  take(shape) {
    this.shape = shape;
    this.forget();
    this.bench.tell("tool");
    this.show();
  }

  turn(by) {
    this.take(NAMES[(NAMES.indexOf(this.shape) + by + NAMES.length) % NAMES.length]);
  }

  // ---- the hand
  down(place, event) {
    const { bench } = this;
    const layer = this.isDrawing ? this.layer : layerForObjects(bench);
    if (!layer || bench.barsObjects(layer, "added")) return this.forget();
    if (this.shape === "tile" && bench.carried.bars()) return null;
    if (this.by === "corners") return this.downAt(this.spot(layer, place, event), layer);
    return (this.from = place);
  }

  move(place, event) {
    if (this.isHeld && this.layer) this.corners[this.corners.length - 1] = this.spot(this.layer, place, event);
  }

  up(place, event) {
    const { from, ending } = this;
    Object.assign(this, { isHeld: false, ending: null });
    if (ending) return this.end(ending);
    if (!from) return null;
    const layer = layerForObjects(this.bench);
    const members = layer && this.made(layer, place, event);
    this.from = null;
    return members && this.add(layer, members);
  }

  // Ends a press, which then does nothing.
  cancel() {
    if (this.isHeld) this.corners.pop();
    if (!this.corners?.length) this.forget();
    Object.assign(this, { isHeld: false, ending: null });
  }

  hover(place, event) {
    const layer = this.isDrawing ? this.layer : objectLayer(this.bench);
    if (!layer || (this.shape === "tile" && !this.bench.fillValue)) return null;
    if (this.by === "corners") return this.outline(layer, this.spot(layer, place, event));
    const object = this.made(layer, place, event);
    return { object, layer, colour: COLOUR, words: this.from && `${object.width} × ${object.height} px` };
  }

  // What is shown while the hand is not on the map.
  rest() {
    return this.isDrawing && this.layer ? this.outline(this.layer, null) : null;
  }

  // ---- what a press makes
  // The grid of an event. One by keys is in the middle of a cell.
  gridAt(event) {
    return event?.isTrusted === false ? gridOfKeys(this.bench) : gridOf(this.bench, event);
  }

  // A place of the map in the coordinates of a layer, on the grid.
  spot(layer, { pixelX, pixelY }, event) {
    const grid = this.gridAt(event);
    const on = [pixelX, pixelY].map((at, axis) => (grid ? snapped(at, grid[axis]) : at));
    const [x, y] = this.bench.overlay.inLayer(layer, ...on).map(Math.round);
    return { x, y };
  }

  // The members of the object that a press at one place and a release at another one make.
  made(layer, place, event) {
    if (this.shape === "point") return { ...USUAL, ...this.spot(layer, place, event), width: 0, height: 0, point: true };
    if (this.shape === "tile") return this.tileAt(layer, place, event);
    const [left, top, width, height] = this.box(layer, place, event);
    const more = { ellipse: { ellipse: true }, text: { text: TEXT } }[this.shape];
    return { ...USUAL, x: left, y: top, width, height, ...more };
  }

  // The box of a drag: of the parts of the grid that it goes over, or between two pixels. A click takes a cell.
  box(layer, place, event) {
    const { bench } = this;
    const from = this.from ?? place;
    const isClick = !isDrag(from, place, bench.view.ratio);
    if (isClick && this.shape === "text") return [...Object.values(this.spot(layer, place, event)), ...TEXT_SIZE];
    const [left, top, width, height] = this.boxOnMap(from, place, event, isClick);
    const [x, y] = bench.overlay.inLayer(layer, left, top);
    return [x, y, Math.max(1, width), Math.max(1, height)].map(Math.round);
  }

  boxOnMap(from, to, event, isClick) {
    const { projection } = this.bench.map;
    const [[x0, y0], [x1, y1]] = [from.cell, to.cell];
    const grid = gridOf(this.bench, event);
    const isByKeys = event?.isTrusted === false;
    const isCells = isByKeys || (isClick && !grid) || grid?.[0] === projection.side[0];
    if (isCells) return projection.objectBox([Math.min(x0, x1), Math.min(y0, y1), Math.max(x0, x1) + 1, Math.max(y0, y1) + 1]);
    const [[left, right], [top, bottom]] = ["pixelX", "pixelY"].map((name, axis) => {
      const [first, last] = [Math.min(from[name], to[name]), Math.max(from[name], to[name])];
      const side = grid?.[axis];
      return side ? [Math.floor(first / side) * side, (Math.floor(last / side) + 1) * side] : [first, last].map(Math.round);
    });
    return [left, top, right - left, bottom - top];
  }

  // The tile in hand, with its middle at the hand; on a grid its lower left corner is there, as far as the map has such corners.
  tileAt(layer, { pixelX, pixelY }, event) {
    const { carried, fillValue: gid, map, overlay } = this.bench;
    const [width, height] = carried.sizeOf(gid);
    const members = { ...USUAL, gid, width, height };
    const [x, y] = overlay.placeAround(members, layer, pixelX, pixelY);
    const grid = this.gridAt(event);
    if (!grid) return { ...members, x: Math.round(x), y: Math.round(y) };
    const [aside, up] = map.projection.isIsometric ? [0, 1] : overlay.shapeOf(members).aligned;
    const [right, down] = [-aside * width, (1 - up) * height];
    return { ...members, x: Math.round(snapped(x + right, grid[0]) - right), y: Math.round(snapped(y + down, grid[1]) - down) };
  }

  // Adds an object as one step, and chooses it.
  add(layer, members) {
    const { bench } = this;
    const id = bench.map.data.nextobjectid;
    const done = bench.doAsOne(`Insert ${titleOf(this.shape)} || insert ${this.shape}`, [objectLine(layer.id, members)]);
    if (done.isAccepted) bench.chooseObject(id);
  }

  // ---- corner by corner
  // The layer of the corners, as long as it is there.
  get layer() {
    return this.bench.map?.layer(this.layerId) ?? null;
  }

  // A press at a place: the next corner, or where one stands the end.
  downAt(corner, layer) {
    this.ending = this.isDrawing ? this.endAt(corner, layer) : null;
    if (this.ending) return;
    if (!this.isDrawing) {
      this.bench.chooseObject(null);
      Object.assign(this, { corners: [], layerId: layer.id });
    }
    this.corners.push(corner);
    this.isHeld = true;
  }

  // How a press ends what is drawn: `closed` at its first corner, `open` at its last one; null where it does not.
  endAt(corner, layer) {
    const { overlay, view } = this.bench;
    const [x, y] = overlay.screenPlace(corner, layer);
    const isNear = each => Math.hypot(...overlay.screenPlace(each, layer).map((at, axis) => at - [x, y][axis])) <= NEAR * view.ratio;
    const [first, last] = [this.corners[0], this.corners[this.corners.length - 1]];
    if (isNear(last)) return "open";
    return this.corners.length >= 3 && isNear(first) ? "closed" : null;
  }

  // The corners that stand, with the one under the hand.
  outline(layer, corner) {
    const stands = this.corners ?? [];
    const [first] = stands.length ? stands : [corner];
    const isClosing = this.isDrawing && corner !== null && !this.isHeld && this.endAt(corner, layer) === "closed";
    const all = isClosing ? [...stands, first] : corner === null || this.isHeld ? stands : [...stands, corner];
    const line = all.map(({ x, y }) => ({ x: x - first.x, y: y - first.y }));
    return { object: { x: first.x, y: first.y, [isClosing && this.shape === "polygon" ? "polygon" : "polyline"]: line }, layer, colour: COLOUR, corners: stands };
  }

  // Adds what is drawn, where it has corners enough.
  end(how = "open") {
    const { corners, layer, bench } = this;
    const { least } = SHAPES[this.shape];
    if (!corners) return;
    if (!layer) return this.forget();
    if (corners.length < least) return void bench.say(`A ${this.shape} has at least ${least} corners.`);
    const [{ x, y }] = corners;
    const all = how === "closed" && this.shape === "polyline" ? [...corners, corners[0]] : corners;
    this.forget();
    this.add(layer, { ...USUAL, x, y, width: 0, height: 0, [this.shape]: all.map(each => ({ x: each.x - x, y: each.y - y })) });
  }

  forget() {
    Object.assign(this, { corners: null, layerId: null, isHeld: false, ending: null, from: null });
    return null;
  }

  // ---- keys
  // Gives up what is drawn, or else chooses no object any more.
  drop() {
    if (!this.isDrawing) return this.objects.drop();
    this.forget();
    this.show();
    return true;
  }

  // Takes back the last corner, or else removes the chosen object.
  remove() {
    if (!this.isDrawing) return this.objects.remove();
    this.corners.pop();
    if (!this.corners.length) this.forget();
    this.show();
    return true;
  }

  copy() {
    return this.objects.copy();
  }

  cut() {
    return this.objects.cut();
  }

  paste() {
    return this.objects.paste();
  }

  duplicate() {
    return this.objects.duplicate();
  }

  nudge(...words) {
    return this.objects.nudge(...words);
  }
}
