// SPDX-License-Identifier: MIT OR Apache-2.0
// Draws over the map: the grid, the selection, the objects, and what the hand is about to do.
import { isLockedIn } from "../tools/barred_layers.js";
import { CellOverlay } from "./cell_overlay.js";
import { CellPreview } from "./cell_preview.js";
import { areTouching, boxesOn, placeOnScreen } from "./object_boxes.js";
import { handlePlaces } from "./object_handles.js";
import { areaOf, boxOf, cornersOf, isOn, mapPlace, middleOf, ownPlace, placeWith } from "./object_shapes.js";
import { PIN, ShapePainter } from "./shape_painter.js";
import { alignedAt, isThing, paintThing, reachOfThing } from "./thing_painter.js";
import { colourOfText } from "./tints.js";

const LONGEST_NAME = 300;
// How many objects that are seen are drawn whole, those of the first layers first: of the others the box is, without a name.
export const MOST_WHOLE = 4000;
// The colour of an outline where its layer tells none.
const OUTLINE = "#e4e7eb";
// The side of a handle, in pixels of the page; and how far around an object its outline reaches, that of a spot, its handles, and the
// sharpest corner of a line.
const HANDLE = 8;
const AROUND = { outline: 4, spot: 8, pin: PIN.above + PIN.radius + 4, handles: 48, corner: 28 };
// How high a name stands above its object, how much wider than its letters it is, how high, and of how many the width is kept.
const ABOVE = 18;
const BESIDE = 8;
const NAME = 16;
const MOST_WIDTHS = 20_000;

// Whether an object needs no outline: its tile is drawn, or its words.
const isSeenAsIs = object => isThing(object) && Boolean(object.gid || object.text.text);

export class Overlay {
  constructor(view, editor, tilesets) {
    this.view = view;
    this.editor = editor;
    this.tilesets = tilesets;
    this.canvas = view.box.querySelector("#overlay");
    this.pen = this.canvas.getContext("2d");
    this.handPen = view.box.querySelector("#hand").getContext("2d");
    this.cells = new CellOverlay(view, this.pen);
    this.preview = new CellPreview(view, this.cells, this.handPen);
    this.shapes = new ShapePainter(view, tilesets);
    this.hasGrid = true;
    this.hasNames = true;
    // The objects that are chosen, by their ids.
    this.chosen = new Set();
    // The one under the hand, by its id.
    this.hovered = null;
    // How objects are drawn while they are dragged, by their ids.
    this.places = new Map();
    // Whether all is drawn anew; else only where these objects are, { object, layer } of each. And whether what the hand is about to do is.
    Object.assign(this, { isChanged: true, objects: [], isHandChanged: true });
    // How wide names are drawn, at a ratio of the screen.
    this.widths = new Map();
    // How far objects with corners reach.
    this.reaches = new WeakMap();
    // What the hand is about to do with cells (see cell_preview.js). Or the members of an object that it is about to add to a layer:
    // { object, layer, colour, corners }, with corners that stand already; or the band that chooses objects: { band: [left, top, right, bottom] },
    // on the screen.
    this.hand = null;
    // Whether objects were chosen last, and no cells.
    this.isChosenLast = () => false;
  }

  redraw() {
    this.isChanged = true;
    this.redrawHand();
  }

  redrawHand() {
    this.isHandChanged = true;
    this.askFrame();
  }

  // Draws where objects are, or were: { object, layer } of each.
  redrawObjects(all) {
    this.objects.push(...all);
    this.askFrame();
  }

  askFrame() {
    this.frame ??= requestAnimationFrame(() => {
      this.frame = null;
      this.draw();
      if (this.isHandChanged) this.drawHand();
      Object.assign(this, { isChanged: false, objects: [], isHandChanged: false });
    });
  }

  get map() {
    return this.editor.map;
  }

  // How objects are drawn while they are dragged: of each its id, and the members that are others than the map has. Null where none is.
  get dragged() {
    return this.places.values().next().value ?? null;
  }

  // Meanwhile the map does not show them at their old places.
  set dragged(places) {
    const all = [places ?? []].flat();
    const found = [...new Set([...this.places.keys(), ...all.map(({ id }) => id)])].map(id => this.map?.object(id)).filter(each => each);
    const placed = () => found.map(({ object, layer }) => ({ object: this.placed(object), layer }));
    const before = placed();
    this.places = new Map(all.map(place => [place.id, place]));
    this.redrawObjects([...before, ...placed()]);
    const hidden = new Set(found.filter(({ object }) => this.places.has(object.id) && isThing(object)).map(({ object }) => object.id));
    const was = this.view.hidden;
    if (hidden.size === was.size && [...hidden].every(id => was.has(id))) return;
    this.view.hidden = hidden;
    this.view.redrawThings(found);
  }

  // Has objects chosen, by their ids.
  choose(ids) {
    const before = this.chosen;
    this.chosen = new Set(ids);
    const others = [...before, ...ids].filter(id => before.has(id) !== this.chosen.has(id));
    // With one alone its handles come or go.
    const again = before.size === 1 || this.chosen.size === 1 ? [...before, ...ids] : others;
    if (others.length) this.redrawObjects([...new Set(again)].map(each => this.map?.object(each)).filter(each => each));
  }

  // Has an object shown as the one under the hand, by its id; null for none.
  hover(id) {
    if (id === this.hovered) return;
    const before = this.hovered;
    this.hovered = id;
    this.redrawObjects([before, id].map(each => this.map?.object(each)).filter(each => each));
  }

  draw() {
    const { canvas } = this;
    const boxes = this.isChanged || !this.map ? null : boxesOn(canvas, this.objects.map(({ object, layer }) => this.boxOf(object, layer)));
    for (const box of boxes ?? [[0, 0, canvas.width, canvas.height]]) this.drawBox(box);
  }

  // Draws all that is in a box of the screen, in whole pixels.
  drawBox(box) {
    const { pen } = this;
    const [left, top, right, bottom] = box;
    pen.save();
    pen.beginPath();
    pen.rect(left, top, right - left, bottom - top);
    pen.clip();
    pen.clearRect(left, top, right - left, bottom - top);
    if (this.map) this.drawMap(box);
    pen.restore();
  }

  drawMap(box) {
    if (this.hasGrid) this.cells.drawGrid(box);
    this.drawObjects(box);
    this.cells.drawSelection(box);
  }

  // ---- objects
  // The chosen ones stand over all others.
  drawObjects(box) {
    const chosen = this.showsChosen ? this.chosen : new Set();
    let left = MOST_WHOLE;
    // Each name finds it.
    this.pen.font = this.font;
    for (const layer of this.map.layers) {
      const others = [];
      for (const each of layer.isSeen ? layer.data.objects ?? [] : []) {
        if (each.visible === false || chosen.has(each.id)) continue;
        const object = this.placed(each);
        const place = this.screenPlace(object, layer);
        if (!this.isInView(object, place)) continue;
        const isWhole = left-- > 0;
        if (!this.isIn(box, object, place)) continue;
        if (isWhole) this.drawObject(object, layer);
        else if (!isSeenAsIs(object)) others.push(object);
      }
      if (others.length) this.drawBoxes(others, layer);
    }
    this.drawChosen([...chosen].map(id => this.map.object(id)).filter(each => each && this.isShown(each)));
  }

  // One that is chosen alone has handles.
  drawChosen(all) {
    for (const { object, layer } of all) this.drawObject(this.placed(object), layer);
    if (all.length === 1 && this.chosen.size === 1 && this.hasHandles) this.drawHandles(all[0]);
  }

  // Whether a part of the object or its name may be seen, where its place is on the screen: all of it lies within its greatest length of that.
  isInView(object, [x, y]) {
    const reach = this.reachOf(object) * this.view.scale + LONGEST_NAME;
    return x > -reach && y > -reach && x < this.canvas.width + reach && y < this.canvas.height + reach;
  }

  // The box of the screen in which an object is drawn, with its name and its handles.
  boxOf(object, layer) {
    const [x, y] = this.screenPlace(object, layer);
    const reach = Math.max(this.reachOnScreen(object), this.reachOnScreen(object, AROUND.handles));
    const [left, above, right] = this.nameBox(object);
    return [x + Math.min(left, -reach), y + Math.min(above, -reach), x + Math.max(right, reach), y + reach];
  }

  // Whether a part of an object that is not chosen is in a box, where its place is on the screen. There are many: of few the name is measured.
  isIn([left, top, right, bottom], object, [x, y]) {
    const reach = this.reachOnScreen(object);
    if (x + reach > left && x - reach < right && y + reach > top && y - reach < bottom) return true;
    if (!object.name || !(this.hasNames || this.hovered === object.id)) return false;
    const [aside, above] = this.nameCorner(object);
    if (y + above >= bottom || y + above + NAME * this.view.ratio <= top || x + aside >= right) return false;
    return x + this.nameBox(object)[2] > left;
  }

  // How far from its place an object is drawn on the screen: slanted or with its tile moved aside, and with its outline.
  reachOnScreen(object, around = this.aroundOf(object)) {
    const { projection: { isIsometric, matrix } } = this.map;
    const reach = isThing(object) ? reachOfThing(object, this.tilesets) : this.reachOf(object) * (isIsometric ? Math.hypot(...matrix) : 1);
    return reach * this.view.scale + around * this.view.ratio;
  }

  aroundOf(object) {
    if (object.point) return AROUND.pin;
    if (cornersOf(object)) return AROUND.corner;
    return object.width || object.height ? AROUND.outline : AROUND.spot;
  }

  // How far an object reaches from its place.
  reachOf(object) {
    const corners = cornersOf(object);
    const [width, height] = [object.width ?? 0, object.height ?? 0];
    if (!corners) return Math.sqrt(width * width + height * height);
    if (!this.reaches.has(object)) this.reaches.set(object, corners.reduce((far, { x, y }) => Math.max(far, Math.hypot(x, y)), 0));
    return this.reaches.get(object);
  }

  // Where an object's own place stands on the screen.
  screenPlace(object, layer) {
    return placeOnScreen(this.view, object, layer);
  }

  drawObject(object, layer) {
    const { pen, view } = this;
    if (object.visible === false) return;
    // The map shows tiles and texts, but for one that is dragged.
    if (view.hidden.has(object.id)) paintThing(view.painter, layer, object, pen);
    pen.save();
    pen.translate(...this.screenPlace(object, layer));
    const isChosen = this.chosen.has(object.id) && this.showsChosen;
    const isHovered = this.hovered === object.id;
    if (isChosen || isHovered || !isSeenAsIs(object)) this.drawOutline(object, layer, isChosen, isHovered);
    this.drawName(object, isChosen, isHovered);
    pen.restore();
  }

  drawOutline(object, layer, isChosen, isHovered) {
    const { pen, view } = this;
    pen.save();
    pen.globalAlpha = layer.opacity;
    pen.lineWidth = (isChosen ? 3 : isHovered ? 2.5 : 1.5) * view.ratio;
    pen.strokeStyle = isChosen ? "#ffd34d" : colourOfText(layer.data.color, OUTLINE);
    pen.fillStyle = isChosen ? "#ffd34d33" : isHovered ? "#ffffff44" : "#ffffff22";
    this.shapes.paint(pen, object);
    pen.restore();
  }

  // Draws what the hand is about to do.
  drawHand() {
    const { hand, handPen: pen, view } = this;
    this.preview.draw(hand?.cells ? hand : null);
    if (this.map && hand?.band) this.drawBand(pen, hand.band);
    if (!this.map || !hand?.object) return;
    const { object, layer, corners = [] } = hand;
    pen.save();
    pen.globalAlpha = 0.75;
    if (isThing(object)) paintThing(view.painter, layer, object, pen);
    pen.globalAlpha = 1;
    pen.translate(...this.screenPlace(object, layer));
    Object.assign(pen, { lineWidth: 2 * view.ratio, strokeStyle: hand.colour, fillStyle: `${hand.colour}33` });
    this.shapes.paint(pen, object);
    pen.restore();
    for (const corner of corners) this.drawHandle(pen, this.screenPlace(corner, layer));
  }

  // The rectangle that chooses objects, on the screen.
  drawBand(pen, [left, top, right, bottom]) {
    pen.fillStyle = "#8cc8ff33";
    pen.fillRect(left, top, right - left, bottom - top);
    for (const [colour, width] of [["#10131a", 3], ["#8cc8ff", 1]]) {
      Object.assign(pen, { strokeStyle: colour, lineWidth: width * this.view.ratio });
      pen.strokeRect(left, top, right - left, bottom - top);
    }
  }

  // The boxes around objects of a layer, which are not turned.
  drawBoxes(objects, layer) {
    const { pen, view: { scale } } = this;
    pen.beginPath();
    for (const object of objects) {
      const [x, y] = this.screenPlace(object, layer);
      const [left, top, right, bottom] = boxOf(this.shapeOf(object));
      pen.rect(x + left * scale, y + top * scale, (right - left) * scale, (bottom - top) * scale);
    }
    pen.lineWidth = 1;
    pen.strokeStyle = colourOfText(layer.data.color, OUTLINE);
    pen.stroke();
  }

  // Names that are hidden are seen of what is chosen or under the hand.
  drawName(object, isChosen, isHovered) {
    if (!object.name || !(this.hasNames || isChosen || isHovered)) return;
    const { pen, view: { ratio } } = this;
    const [left, top, right] = this.nameBox(object);
    pen.font = this.font;
    pen.textBaseline = "bottom";
    pen.fillStyle = isChosen ? "#ffd34d" : "#000a";
    pen.fillRect(left, top, right - left, NAME * ratio);
    pen.fillStyle = isChosen ? "#000" : "#fff";
    pen.fillText(object.name, left + 4 * ratio, top + (ABOVE - 4) * ratio);
  }

  // The upper left corner of an object's name, from its place.
  nameCorner(object) {
    const { ratio, scale } = this.view;
    const [aside, up] = object.gid ? alignedAt(this.tilesets.of(object.gid), this.map) : [0, 0];
    const above = object.point ? ABOVE + PIN.above + PIN.radius : ABOVE;
    return [-aside * (object.width ?? 0) * scale, -up * (object.height ?? 0) * scale - above * ratio];
  }

  // The box of its name: [left, top, right].
  nameBox(object) {
    const [left, top] = this.nameCorner(object);
    return [left, top, left + (object.name ? this.widthOf(object.name) + BESIDE * this.view.ratio : 0)];
  }

  get font() {
    return `${12 * this.view.ratio}px sans-serif`;
  }

  // How wide a name is drawn.
  widthOf(name) {
    const { pen, font, widths } = this;
    if (widths.font !== font || widths.size > MOST_WIDTHS) this.widths = Object.assign(new Map(), { font });
    if (!this.widths.has(name)) {
      pen.font = font;
      this.widths.set(name, pen.measureText(name).width);
    }
    return this.widths.get(name);
  }

  // The object at a place in pixels of the map: first of the layer in hand, then the smallest, then the one drawn last. One of a locked
  // layer is found only where that is in hand.
  objectAt(x, y, layerId) {
    const found = [];
    for (const layer of this.map.layers) {
      if (!layer.isSeen || (layer.id !== layerId && isLockedIn(layer))) continue;
      for (const object of layer.data.objects ?? []) {
        if (this.isUnder(object, layer, x, y)) found.unshift({ object, layer, rank: layer.id === layerId ? 0 : 1, area: areaOf(object) });
      }
    }
    return found.sort((one, other) => one.rank - other.rank || one.area - other.area)[0] ?? null;
  }

  // The ids of objects that reach into a box of the screen, [left, top, right, bottom]: of the layer in hand, or else of all that are seen and
  // not locked.
  objectsIn(box, layerId) {
    const inHand = this.map.layer(layerId);
    const isOf = layer => (inHand?.data.objects?.length ? layer === inHand : !isLockedIn(layer));
    const isThere = (object, layer) => object.visible !== false && areTouching(this.frameOf(object, layer), box);
    return this.map.layers.filter(layer => layer.isSeen && isOf(layer)).flatMap(layer => (layer.data.objects ?? []).filter(each => isThere(each, layer)).map(each => each.id));
  }

  // The box of the screen around the shape of an object.
  frameOf(object, layer) {
    const { projection } = this.map;
    const [left, top, right, bottom] = boxOf(this.shapeOf(object));
    const places = [[left, top], [right, top], [right, bottom], [left, bottom]].map(corner => projection.place(...mapPlace(object, layer, corner, projection)));
    const across = places.map(([x]) => this.view.originX + x * this.view.scale);
    const down = places.map(([, y]) => this.view.originY + y * this.view.scale);
    return [Math.min(...across), Math.min(...down), Math.max(...across) + 1, Math.max(...down) + 1];
  }

  isUnder(object, layer, x, y) {
    if (object.visible === false) return false;
    if (object.point && this.isOnPin(object, layer, x, y)) return true;
    return isOn(this.shapeOf(object), ...this.ownPlace(object, layer, x, y), this.view.scale / this.view.ratio);
  }

  // Whether a place of the map is on the head of a point's pin, which stands upright on the screen.
  isOnPin(object, layer, x, y) {
    const { ratio, scale } = this.view;
    const [[left, top], [atX, atY]] = [placeOnScreen(this.view, object, layer), this.map.projection.place(x, y)];
    const [across, down] = [this.view.originX + atX * scale - left, this.view.originY + atY * scale - top];
    return Math.hypot(across, down + PIN.above * ratio) <= (PIN.radius + 1) * ratio;
  }

  // A place of the map in an object's own coordinates.
  ownPlace(object, layer, x, y) {
    return ownPlace(object, layer, x, y, this.map.projection);
  }

  // A place of the map as an object of a layer names it, whose layer may be moved.
  inLayer(layer, x, y) {
    const { projection } = this.map;
    const [left, top] = projection.place(x, y);
    return projection.named(left - layer.offsetX, top - layer.offsetY);
  }

  // The place of an object of a layer whose middle lies at a place of the map.
  placeAround(object, layer, x, y) {
    return placeWith(object, layer, middleOf(this.shapeOf(object)), x, y, this.map.projection);
  }

  // An object with how it stands at its place.
  shapeOf(object) {
    return object.gid ? { ...object, aligned: alignedAt(this.tilesets.of(object.gid), this.map) } : object;
  }

  // Whether an object is drawn.
  isShown({ object, layer }) {
    return layer.isSeen && object.visible !== false;
  }

  // Whether the tool in hand shows which object is chosen, and whether that has handles.
  get showsChosen() {
    return this.isChosenLast() || ["objects", "insert"].includes(this.view.box.dataset.tool);
  }

  get hasHandles() {
    return this.view.box.dataset.tool === "objects";
  }

  // The handles of the chosen object, in pixels of the screen.
  drawHandles({ object, layer }) {
    const { pen, view } = this;
    const shown = this.placed(object);
    pen.save();
    pen.translate(...this.screenPlace(shown, layer));
    pen.rotate((shown.rotation ?? 0) * Math.PI / 180);
    const [a, b, c, d] = object.gid ? [1, 0, 0, 1] : this.map.projection.matrix;
    for (const [name, x, y] of handlePlaces(this.shapeOf(shown), view.scale / view.ratio)) {
      const place = [(a * x + c * y) * view.scale, (b * x + d * y) * view.scale];
      if (name === "turn" || name.startsWith("edge")) this.drawKnob(pen, place, name === "turn" ? HANDLE / 2 + 1 : HANDLE / 2 - 1);
      else this.drawHandle(pen, place);
    }
    pen.restore();
  }

  // A round handle: it turns the object, or adds a corner.
  drawKnob(pen, [left, top], radius) {
    const { ratio } = this.view;
    Object.assign(pen, { lineWidth: ratio, strokeStyle: "#000", fillStyle: "#fff" });
    pen.beginPath();
    pen.arc(left, top, radius * ratio, 0, 2 * Math.PI);
    pen.fill();
    pen.stroke();
  }

  drawHandle(pen, [left, top]) {
    const { ratio } = this.view;
    const side = HANDLE * ratio;
    const box = [Math.round(left - side / 2), Math.round(top - side / 2), side, side];
    Object.assign(pen, { lineWidth: ratio, strokeStyle: "#000", fillStyle: "#fff" });
    pen.fillRect(...box);
    pen.strokeRect(...box);
  }

  // An object with the place and the size to which it is dragged.
  placed(object) {
    const place = this.places.get(object.id);
    return place ? { ...object, ...place } : object;
  }
}
