// SPDX-License-Identifier: MIT OR Apache-2.0
// The tools of the hand on the map, and its events there. Each gives the editor session lines, and nothing else.
import { FillTool, fillRectangle } from "./fill_tools.js";
import { InsertTool } from "./insert_tool.js";
import { HandWords } from "./hand_words.js";
import { PAINTING } from "./layer_tools.js";
import { ObjectTool } from "./object_tools.js";
import { patternFrom } from "./patterns.js";
import { StrokeTool } from "./stroke_tool.js";
import { ViewHand } from "./view_hand.js";

const DRAWN = "#7fd67f";
const COLOURS = { brush: DRAWN, eraser: "#ff8f8f", fill: DRAWN, rectangle: DRAWN, select: "#8cc8ff", capture: "#d8b4ff" };
// The tools that draw the stamp: with these the right button takes tiles.
const STAMPING = new Set(["brush", "fill", "rectangle"]);
// Those whose cells are those of the layer in hand, where it lies.
const ON_LAYER = new Set([...PAINTING, "capture"]);

// The rectangle of cells from one corner to the other.
function cellsBetween([x0, y0], [x1, y1]) {
  return [Math.min(x0, x1), Math.min(y0, y1), Math.abs(x1 - x0) + 1, Math.abs(y1 - y0) + 1];
}

// A drag over cells: `done` is called with its rectangle, and `valueIn` gives which values it would leave there, if it leaves any.
class RectangleTool {
  constructor(bench, name, done, valueIn = () => undefined) {
    Object.assign(this, { bench, name, done, valueIn, first: null, isDragged: true });
  }

  hover(place) {
    const cells = cellsBetween(this.first ?? place.cell, place.cell);
    return { cells, valueAt: this.valueIn(cells), colour: COLOURS[this.name], grows: this.bench.growth.grows, words: this.first && `${cells[2]} × ${cells[3]}` };
  }

  down(place, event) {
    this.first = place.cell;
    this.keys = { shift: event.shiftKey, ctrl: event.ctrlKey || event.metaKey };
  }

  move() {}

  up(place) {
    if (!this.first) return;
    const cells = cellsBetween(this.first, place.cell);
    this.first = null;
    this.done(cells, this.keys);
  }

  // Ends the drag, which then does nothing.
  cancel() {
    this.first = null;
  }
}

// What of an event tells where the hand is, and which keys are held.
const eventAt = ({ clientX, clientY, shiftKey, ctrlKey, metaKey, isTrusted, pointerType }) => (
  { clientX, clientY, shiftKey, ctrlKey, metaKey, isTrusted, pointerType }
);

function select(bench, cells, { shift, ctrl }) {
  const how = shift && ctrl ? "intersect" : shift ? "add" : ctrl ? "subtract" : "replace";
  bench.act([`select ${how} ${cells.join(" ")}`]);
}

// All tools by their names, the one that is used, and the hand's events on the map.
//
// A tool has `down`, `move` and `up`, each with the place of the hand and its event, and `hover`, which tells what is shown under the
// hand, with words beside it; `rest`, where it is there, tells what is shown while the hand is not on the map. With `cancel` it ends what it is about. `isDragged`
// tells whether it wants a press and a release. It may also have calls for keys: `copy`, `cut`, `paste`, `remove`, `duplicate`, `drop`, `nudge`
// and `end`. One that gives `true` has done what its key asks for; else the key is about cells.
export class Tools {
  constructor(bench) {
    this.bench = bench;
    const rectangle = (name, done, valueIn) => new RectangleTool(bench, name, done, valueIn);
    const objects = new ObjectTool(bench);
    this.all = {
      brush: new StrokeTool(bench, "brush", COLOURS.brush),
      eraser: new StrokeTool(bench, "eraser", COLOURS.eraser),
      fill: new FillTool(bench, COLOURS.fill),
      rectangle: rectangle("rectangle", cells => fillRectangle(bench, cells), cells => patternFrom(bench.stamp, cells)),
      select: rectangle("select", (cells, keys) => select(bench, cells, keys)),
      objects,
      insert: new InsertTool(bench, objects, () => this.showAnew()),
      capture: rectangle("capture", cells => bench.takeCells(...cells)),
    };
    this.name = "brush";
    this.held = null;
    this.isSpace = false;
    // Where the hand is on the map, and which keys are held there, as an event tells it; null where it is not there.
    this.at = null;
    this.words = new HandWords(bench.view);
    // What the next press on the map chooses an object for: it is called with that; null where nothing waits for one.
    this.picking = null;
    bench.pickObject = take => this.pick(take);
    // The time of the last move of a drag that came before a frame of the screen.
    this.drawnUpTo = -Infinity;
    this.viewHand = new ViewHand(bench.view, event => this.down(event), () => this.cancel());
    this.listen(bench.view.box);
    // What is shown under the hand is about the layer that is chosen, the stamp, and what the map has.
    for (const name of ["layer chosen", "stamp"]) bench.addEventListener(name, () => this.showAnew());
    bench.editor.addEventListener("done", () => this.name === "fill" && this.showAnew());
  }

  get now() {
    return this.all[this.name];
  }

  choose(name) {
    this.name = name;
    this.bench.view.box.dataset.tool = name;
    this.showAnew();
    this.bench.tell("tool");
  }

  listen(box) {
    box.onpointerdown = event => this.down(event);
    box.onpointermove = event => this.move(event);
    // Comes at once, where the browser has it; `pointermove` waits for a frame of the screen.
    box.addEventListener("pointerrawupdate", event => this.raw(event));
    box.onpointerup = event => this.up(event);
    box.onpointercancel = event => this.up(event);
    box.onpointerleave = () => this.leave();
    for (const kind of ["keydown", "keyup"]) addEventListener(kind, event => ["Shift", "Control", "Meta"].includes(event.key) && this.hold(event));
    box.oncontextmenu = event => event.preventDefault();
    box.ondblclick = event => this.now.doubled?.(this.placeOf(event), event);
    addEventListener("blur", () => (this.isSpace = false));
  }

  // The tool of a press: the middle button or the space bar moves the view, the right button takes tiles.
  toolOf(event) {
    if (event.button === 1 || this.isSpace) return "pan";
    if (event.button === 2) return STAMPING.has(this.name) ? "capture" : null;
    return event.button === 0 ? this.name : null;
  }

  down(event) {
    document.activeElement?.blur();
    getSelection().removeAllRanges();
    const name = this.toolOf(event);
    if (!name || this.held || (name !== "pan" && !this.isReady())) return;
    if (this.picking && name !== "pan") return this.endPick(this.foundAt(this.placeOf(event, "objects")));
    if (PAINTING.has(name) && this.bench.barredLayer()) return;
    if (STAMPING.has(name) && this.bench.carried.bars()) return;
    event.preventDefault();
    // A press by keys has no pointer.
    if (event.isTrusted) this.bench.view.box.setPointerCapture(event.pointerId);
    this.held = name;
    this.bench.isHeld = true;
    if (name !== "pan") this.bench.view.hold(true);
    this.bench.view.box.classList.add("held");
    this.drawnUpTo = -Infinity;
    this.bench.view.work = performance.now();
    this.from = this.placeOf(event);
    if (name !== "pan") this.all[name].down(this.from, event);
    this.bench.view.drawNow();
  }

  // ---- an object that something else asks for
  pick(take) {
    this.picking = take;
    this.bench.view.box.classList.add("picking");
    this.bench.say("Click at the object on the map. Escape leaves it.");
  }

  foundAt({ pixelX, pixelY }) {
    return this.bench.overlay.objectAt(pixelX, pixelY, this.bench.layerId)?.object.id ?? null;
  }

  // Ends that with the id of an object, null where there was none, or with nothing.
  endPick(id) {
    const take = this.picking;
    this.picking = null;
    this.bench.view.box.classList.remove("picking");
    this.bench.overlay.hover(null);
    if (id === undefined) this.bench.bubble.hide();
    else if (id === null) this.bench.say("There is no object.");
    else take(id);
  }

  isReady() {
    if (this.bench.editor.barred) this.bench.say(this.bench.editor.barred);
    else if (!this.bench.map) this.bench.say("Open a map first.");
    else if (!this.bench.layer) this.bench.say("Add a layer first.");
    else return true;
    return false;
  }

  move(event) {
    if (this.held === "pan") this.pan(event);
    else if (this.held) this.drag(event);
    if (this.held !== "pan") this.showHand(this.placeOf(event), event);
  }

  pan(event) {
    const { view } = this.bench;
    const place = view.placeOf(event);
    const [x, y] = [Math.round(place.x - this.from.x), Math.round(place.y - this.from.y)];
    view.pan(x, y);
    this.from = { x: this.from.x + x, y: this.from.y + y };
  }

  // The tool that is about something, or else the one in hand.
  get busy() {
    return this.held && this.held !== "pan" ? this.held : this.name;
  }

  // The place of the hand, for a tool.
  placeOf(event, name = this.busy) {
    return this.bench.view.placeOf(event, ON_LAYER.has(name) ? this.bench.layer : null);
  }

  // A move of the hand with all that came with it, but what was drawn already.
  drag(event) {
    const { view } = this.bench;
    const parts = [...(event.getCoalescedEvents?.() ?? []), event].filter(part => part.timeStamp > this.drawnUpTo);
    view.work = performance.now();
    for (const part of parts) this.all[this.held].move(this.placeOf(part), part);
    view.drawNow();
  }

  raw(event) {
    if (!this.held || this.held === "pan") return;
    this.drag(event);
    this.drawnUpTo = event.timeStamp;
  }

  up(event) {
    const name = this.held;
    const place = this.placeOf(event);
    this.release();
    if (name && name !== "pan") this.all[name].up(place, event);
    this.showHand(this.placeOf(event), event);
    this.bench.tell("free");
  }

  release() {
    this.held = null;
    this.bench.isHeld = false;
    this.bench.view.hold(false);
    this.bench.view.box.classList.remove("held");
  }

  // Ends what the hand is about, and says whether it was about something: a stroke is taken back, another drag does nothing.
  cancel() {
    if (!this.held) return false;
    if (this.held !== "pan") this.all[this.held].cancel?.();
    this.release();
    this.showAnew();
    this.bench.tell("free");
    return true;
  }

  // Ends what the hand is about; or else drops what the tool has chosen; or else the selection.
  escape() {
    const { bench } = this;
    if (this.picking) return this.endPick();
    if (this.cancel() || this.now.drop?.() === true) return;
    if (bench.map?.selected && (bench.chosenLast === "cells" || bench.objectId === null)) bench.act(["select none"]);
    bench.chooseObject(null);
  }

  // Ends what the tool draws corner by corner.
  end() {
    this.now.end?.();
    this.showAnew();
  }

  // Whether the tool would draw tiles on a layer that has none.
  get isAstray() {
    const { layer } = this.bench;
    return PAINTING.has(this.busy) && layer !== null && !layer.isTiles;
  }

  // The hand has left the map.
  leave() {
    this.at = null;
    this.showHand(null);
  }

  // Other keys are held while the hand rests.
  hold({ shiftKey, ctrlKey, metaKey }) {
    if (!this.at || this.held === "pan") return;
    Object.assign(this.at, { shiftKey, ctrlKey, metaKey });
    this.showAnew();
  }

  // Shows what the hand is about where it is.
  showAnew() {
    this.showHand(this.at && this.placeOf(this.at), this.at);
  }

  // Shows which object a press would pick.
  showPicked(place) {
    const { overlay } = this.bench;
    overlay.hover(this.foundAt(place));
    overlay.hand = null;
    overlay.redrawHand();
    this.bench.place = place;
    this.bench.tell("hand");
  }

  showHand(place, event = null) {
    const { overlay, map, view } = this.bench;
    this.at = place && event && eventAt(event);
    view.box.classList.toggle("astray", this.isAstray);
    const tool = this.all[this.busy];
    if (this.picking && place) return this.showPicked(place);
    if (!place || tool !== this.all.objects) overlay.hover(null);
    const hand = !map || this.isAstray ? null : place ? tool.hover(place, event) : tool.rest?.() ?? null;
    overlay.hand = hand && { layer: ON_LAYER.has(this.busy) ? this.bench.layer : null, ...hand };
    overlay.redrawHand();
    this.words.show(hand?.words, place);
    this.bench.place = place;
    this.bench.tell("hand");
  }
}
