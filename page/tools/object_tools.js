// SPDX-License-Identifier: MIT OR Apache-2.0
// The tool of the hand that chooses objects, one or several, drags and resizes them.
import { handleAt } from "../view/object_handles.js";
import { ObjectCopies, nameOf } from "./object_copies.js";
import { goalOf, removedCorner, stepFor, stepForAll } from "./object_drags.js";
import { ObjectRun } from "./object_run.js";

// How far the hand moves before a press is a drag, in pixels of the page.
const SHORTEST_DRAG = 3;

// Whether the hand has moved so far from one place to another, where a pixel of the page has so many of the screen.
export const isDrag = (from, to, ratio) => Math.hypot(to.x - from.x, to.y - from.y) >= SHORTEST_DRAG * ratio;

// Chooses objects, and drags them or a handle of one: the page draws them on their way, and their lines are sent at the end. A drag from where
// no object is chooses all in its rectangle.
export class ObjectTool {
  constructor(bench) {
    this.bench = bench;
    // What is dragged: { object, layer, handle, from, all, isMoved }, where `all` are those that go along; or from where a band is drawn.
    Object.assign(this, { drag: null, band: null });
    this.copies = new ObjectCopies(bench);
    this.run = new ObjectRun(bench);
    // The tool shows which ones are chosen.
    bench.addEventListener("tool", () => bench.chosenObjects.length && bench.overlay.redrawObjects(bench.chosenObjects));
  }

  // ---- the hand
  // Shows by the pointer what a press would do, and the object that it would choose.
  hover(place, event) {
    const { view, overlay } = this.bench;
    if (this.band) return { band: this.bandTo(place) };
    if (this.drag) return { words: this.wordsOf(overlay.dragged) };
    const found = overlay.objectAt(place.pixelX, place.pixelY, this.bench.layerId);
    view.box.dataset.over = this.handleAt(place, event) ?? (found ? "object" : "");
    overlay.hover(found?.object.id ?? null);
    return null;
  }

  // Where an object is dragged to, or how large it is then.
  wordsOf(goal) {
    if (!goal || goal.polygon || goal.polyline) return "";
    if (goal.rotation !== undefined) return `${goal.rotation}°`;
    return goal.width === undefined ? `${goal.x}, ${goal.y}` : `${goal.width} × ${goal.height} px`;
  }

  // The handle of the object that is chosen alone at a place, or null.
  handleAt(place, event) {
    const { bench } = this;
    const chosen = bench.chosenObject;
    if (!chosen || !bench.overlay.isShown(chosen)) return null;
    const { overlay, view } = bench;
    const at = overlay.ownPlace(chosen.object, chosen.layer, place.pixelX, place.pixelY);
    return handleAt(overlay.shapeOf(chosen.object), at, view.scale / view.ratio, event?.pointerType === "touch");
  }

  down(place, event) {
    const { bench } = this;
    const handle = event.shiftKey ? null : this.handleAt(place, event);
    const found = handle ? bench.chosenObject : bench.overlay.objectAt(place.pixelX, place.pixelY, bench.layerId);
    if (!found) return this.beginBand(place, event);
    const wasChosen = bench.objectIds.includes(found.object.id);
    if (!handle) this.choose(found.object.id, wasChosen, event.shiftKey);
    this.drag = { ...found, handle, from: place, isMoved: false, wasChosen, all: bench.chosenObjects };
    return null;
  }

  // One of several that are chosen leaves the others so, for they may be dragged; with Shift it comes to them, or goes.
  choose(id, wasChosen, isMore) {
    const { bench } = this;
    if (isMore) bench.chooseObjects(wasChosen ? bench.objectIds.filter(each => each !== id) : [...bench.objectIds, id]);
    else if (!wasChosen) bench.chooseObject(id);
    else bench.chooseObjects([...bench.objectIds.filter(each => each !== id), id]);
  }

  move(place, event) {
    const { drag, bench } = this;
    if (!drag) return;
    if (!drag.isMoved && !isDrag(drag.from, place, bench.view.ratio)) return;
    if (!drag.isMoved && this.isBarredDrag(drag)) return this.cancel();
    drag.isMoved = true;
    const goal = goalOf(bench, drag, place, event);
    const [byX, byY] = [goal.x - Math.floor(drag.object.x ?? 0), goal.y - Math.floor(drag.object.y ?? 0)];
    const others = this.goesAlong(drag).map(({ object }) => ({ id: object.id, x: (object.x ?? 0) + byX, y: (object.y ?? 0) + byY }));
    this.show([{ id: drag.object.id, ...goal }, ...others]);
  }

  // Those that go along where an object is dragged.
  goesAlong({ object, handle, all }) {
    return handle ? [] : all.filter(each => each.object.id !== object.id);
  }

  isBarredDrag(drag) {
    const done = drag.handle ? "changed" : "moved";
    return [drag, ...this.goesAlong(drag)].some(({ layer }) => this.bench.barsObjects(layer, done));
  }

  // Shows objects as they are dragged, null where they are not any more; the fields follow.
  show(dragged) {
    this.bench.overlay.dragged = dragged;
    this.bench.tell("dragged");
  }

  async up(place, event) {
    const { drag, bench } = this;
    if (this.band) return this.endBand(place);
    this.drag = null;
    if (drag?.isMoved) await this.send(this.stepOf(drag, goalOf(bench, drag, place, event)));
    // A click at one of several chooses that alone.
    else if (drag && !drag.handle && drag.wasChosen && !event?.shiftKey) bench.chooseObject(drag.object.id);
    this.show(null);
    return null;
  }

  stepOf(drag, goal) {
    const others = this.goesAlong(drag);
    return others.length ? stepForAll(drag.object, goal, others) : stepFor(drag, goal);
  }

  // Does the lines of a step, which has a name where they are several, or tell less than that.
  send({ lines, name }) {
    if (!lines.length) return null;
    return name ? this.bench.doAsOne(`${name} || ${name.toLowerCase()}`, lines) : this.bench.act(lines);
  }

  // A double click at a corner takes that away.
  doubled(place, event) {
    const { bench } = this;
    const handle = this.handleAt(place, event);
    if (!handle?.startsWith("corner") || bench.barsObjects(bench.chosenObject.layer, "changed")) return;
    const step = removedCorner(bench, bench.chosenObject.object, handle);
    if (step) this.send(step);
  }

  // Ends a drag, which then does nothing.
  cancel() {
    Object.assign(this, { drag: null, band: null });
    this.show(null);
  }

  // ---- the band
  beginBand(place, { shiftKey }) {
    const { bench } = this;
    if (!shiftKey) bench.chooseObject(null);
    if (!bench.map.layers.some(layer => layer.data.objects?.length)) bench.say("This map has no objects. The tool Insert (I) makes one.");
    this.band = { from: place, before: bench.objectIds };
  }

  bandTo(place) {
    const { from } = this.band;
    return [Math.min(from.x, place.x), Math.min(from.y, place.y), Math.max(from.x, place.x), Math.max(from.y, place.y)];
  }

  endBand(place) {
    const { bench, band } = this;
    const box = this.bandTo(place);
    this.band = null;
    if (!isDrag(band.from, place, bench.view.ratio)) return;
    const found = bench.overlay.objectsIn(box, bench.layerId).filter(id => !band.before.includes(id));
    if (found.length) bench.chooseObjects([...band.before, ...found]);
  }

  // ---- keys: each gives true where it is about objects
  // Moves the chosen objects by a pixel, or with Shift by a cell.
  nudge(toX, toY, isFar) {
    const { bench } = this;
    if (!bench.chosenObjects.length) return false;
    const [wide, high] = isFar ? bench.map.projection.side : [1, 1];
    return this.onChosen("moved", all => this.run.move(all.map(({ object }) => object), toX * wide, toY * high));
  }

  // Why an object takes no edit by a key, since it is not seen or its layer is locked; "" where it takes one.
  whyBarred({ object, layer }, done) {
    if (object.visible === false) return `${nameOf(object)} is hidden. It was not ${done}.`;
    return this.bench.barsObjects(layer, done) ? this.bench.bubble.words : "";
  }

  // Calls with the chosen objects that are not barred, if any; says what is left as it is.
  onChosen(done, call) {
    const { bench } = this;
    const all = bench.chosenObjects;
    const [why] = all.map(each => this.whyBarred(each, done)).filter(each => each);
    const free = all.filter(each => !this.whyBarred(each, done));
    bench.bubble.hide();
    if (!all.length) bench.say("Choose an object first: click at one.");
    else if (free.length) call(free);
    if (why && all.length) bench.say(all.length === 1 ? why : `${why} So it is with ${all.length - free.length} of ${all.length} objects.`);
    return true;
  }

  remove() {
    return this.onChosen("removed", all => this.removeAll(all, "Remove Objects"));
  }

  removeAll(all, name) {
    return this.send({ lines: all.map(({ object }) => `object remove ${object.id}`), name: all.length > 1 ? name : null });
  }

  // A copy changes nothing: it is also made of what is hidden, or on a locked layer.
  copy() {
    const { bench } = this;
    const all = bench.chosenObjects;
    return all.length ? this.copies.keep(all) : bench.say("Choose an object first: click at one.");
  }

  cut() {
    return this.onChosen("cut", all => this.copies.whole(all, "cut", members => {
      this.copies.take(members, all);
      this.removeAll(all, "Cut Objects");
    }));
  }

  paste() {
    return this.copies.paste();
  }

  duplicate() {
    return this.onChosen("copied", all => this.copies.duplicate(all));
  }

  // Chooses no object any more.
  drop() {
    if (this.bench.objectId === null) return false;
    this.bench.chooseObject(null);
    return true;
  }
}
