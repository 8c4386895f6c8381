// SPDX-License-Identifier: MIT OR Apache-2.0
// What the hand works with: the editor, the drawn map, the layer, the stamp, the object that was chosen, and words at the hand.
import { Bubble } from "../panels/bubble.js";
import { CarriedTiles } from "../tools/carried_tiles.js";
import { Clipboard } from "../tools/clipboard.js";
import { isField } from "../panels/dom.js";
import { Macros } from "./macros.js";
import { MapGrowth } from "../tools/map_growth.js";
import { BarredLayers, whyBarred, whyLocked, whyNoTiles } from "../tools/barred_layers.js";
import { saidOf } from "./refusals.js";

export class Bench extends EventTarget {
  constructor(editor, view, overlay, tilesets) {
    super();
    Object.assign(this, { editor, view, overlay, tilesets });
    this.layerId = null;
    // The objects that are chosen, by their ids, the last one last; and whether cells or objects were chosen last.
    this.objectIds = [];
    this.chosenLast = "cells";
    overlay.isChosenLast = () => this.chosenLast === "objects";
    editor.addEventListener("selection", () => this.map?.selected && (this.chosenLast = "cells"));
    this.brushSize = 1;
    // Where the hand puts objects, by its word in snapping.js.
    this.snapping = "none";
    this.carried = new CarriedTiles(this);
    // Has the next press on the map choose an object for something else: the tools set it.
    this.pickObject = () => {};
    this.clipboard = new Clipboard(this);
    this.macros = new Macros(this);
    this.growth = new MapGrowth(this);
    // The stamp in hand: the numbers that its tiles have on the active map; and what it is, as a copy (see tile_numbers.js).
    this.stamp = null;
    this.hand = null;
    // The stamp that was pasted, until it is put down.
    this.pasted = null;
    this.carried.takeUsual();
    // Whether a button is down on the map: the panels wait until it is up.
    this.isHeld = false;
    this.bubble = new Bubble(() => view.drawnBox());
    this.barredLayers = new BarredLayers(this);
    this.handX = this.handY = 100;
    addEventListener("pointermove", event => this.moveHand(event.clientX, event.clientY), true);
    addEventListener("pointerdown", event => this.moveHand(event.clientX, event.clientY), true);
    document.addEventListener("keydown", () => this.moveToField(), true);
  }

  get map() {
    return this.editor.map;
  }

  get layer() {
    return this.map?.layer(this.layerId) ?? null;
  }

  tell(name) {
    this.dispatchEvent(new Event(name));
  }

  // ---- what is chosen
  // Keeps to a layer and an object that are there.
  settle() {
    if (this.map && !this.layer) this.layerId = (this.map.layers.find(layer => layer.isTiles) ?? this.map.layers[0])?.id ?? null;
    const { active } = this.editor.openDocuments;
    this.objectIds = active === this.document ? this.objectIds.filter(id => this.map?.object(id)) : [];
    this.document = active;
    this.overlay.choose(this.objectIds);
    this.tell("chosen");
  }

  chooseLayer(id) {
    this.layerId = id;
    this.settle();
    this.tell("layer chosen");
  }

  chooseObject(id) {
    this.chooseObjects(id === null ? [] : [id]);
  }

  // Chooses objects, and the layer of the last one.
  chooseObjects(ids) {
    this.objectIds = ids;
    if (ids.length) {
      this.layerId = this.map.object(this.objectId).layer.id;
      this.chosenLast = "objects";
    }
    this.settle();
    this.tell("object chosen");
  }

  // The object that was chosen last, by its id; null where none is.
  get objectId() {
    return this.objectIds.at(-1) ?? null;
  }

  // The objects that are chosen, each with its layer.
  get chosenObjects() {
    return this.objectIds.map(id => this.map?.object(id)).filter(each => each);
  }

  // The object that is chosen alone, with its layer; null where there is none, or several.
  get chosenObject() {
    return this.objectIds.length === 1 ? this.map?.object(this.objectId) ?? null : null;
  }

  // Whether the objects of a layer take no edit, since it is hidden or locked. It is said what was not done.
  barsObjects(layer, done) {
    const why = whyBarred(layer);
    if (why) this.say(`${why} Nothing was ${done}.`);
    return why !== "";
  }

  // The layers of the chosen objects that are locked: their objects take no edit of a list or a field either.
  get lockedLayers() {
    return [...new Set(this.chosenObjects.map(({ layer }) => layer))].filter(layer => whyLocked(layer));
  }

  // Whether the chosen objects take no edit of a list, since a layer of theirs is locked. It is said what was not done.
  barsChosen(done) {
    const [layer] = this.lockedLayers;
    if (layer) this.say(`${whyLocked(layer)} Nothing was ${done}.`);
    return layer !== undefined;
  }

  // Whether the layer in hand takes no stroke, since it has no tiles, or is hidden or locked. Then it says so.
  barredLayer() {
    const why = this.layer ? whyNoTiles(this.map, this.layer) : "";
    if (why) this.say(why);
    return why !== "" || this.barredLayers.bars();
  }

  // The value of a fill: the first tile of the stamp; 0 where it has none. (Its first cell may be one that leaves the map as it is.)
  get fillValue() {
    return this.stamp.values.find(value => value !== 0) ?? 0;
  }

  // Takes tiles into the hand, by the numbers that they have on the active map.
  takeStamp(stamp) {
    this.carried.put(stamp);
    this.tell("stamp");
  }

  // Takes the cells of a rectangle of the layer as the stamp.
  takeCells(x, y, width, height) {
    const stamp = this.stampOf(x, y, width, height);
    if (stamp) this.takeStamp(stamp);
  }

  // The stamp of a rectangle of the layer, within the map, and within the selection where `isSelected`; null where there is nothing to
  // take, which is said.
  stampOf(x, y, width, height, isSelected = false) {
    const { map, layer } = this;
    if (!layer?.isTiles) return this.say("Choose a tile layer to take tiles from.");
    const [left, top, wide, high] = map.cut(x, y, width, height);
    const values = wide && high ? Array.from(map.cells(layer.id, left, top, wide, high)) : [];
    for (let at = 0; isSelected && at < values.length; at++) {
      if (!map.isReached(left + at % wide, top + Math.floor(at / wide))) values[at] = 0;
    }
    return values.some(value => value) ? { width: wide, height: high, values } : this.say("These cells are empty.");
  }

  // The rectangle of the selection: [x, y, width, height]; null where no cell is selected.
  get selectedBox() {
    const runs = this.map?.runs ?? [];
    if (!runs.length) return null;
    let [left, right] = [Infinity, 0];
    for (const [, column, count] of runs) [left, right] = [Math.min(left, column), Math.max(right, column + count)];
    return [left, runs[0][0], right - left, runs[runs.length - 1][0] + 1 - runs[0][0]];
  }

  // The stamp of the selected cells; null where there are none, which is said.
  selectedStamp() {
    if (!this.map) return this.say("Open a map first.");
    const box = this.selectedBox;
    return box ? this.stampOf(...box, true) : this.say("Select cells first, with the tool Select.");
  }

  // ---- lines
  // Does lines, and says what was refused.
  async act(lines, options = {}) {
    return this.sayRefusal(await this.editor.send(lines, options));
  }

  // Does edits as one step, and none of them where one is refused. A macro that is open has them as a part.
  doAsOne(text, lines) {
    const { editor } = this;
    if (editor.stand().depth) return this.sayRefusal(editor.doLines(lines));
    const done = editor.doLines([`begin ${text}`, ...lines, "end"]);
    if (!done.isAccepted && done.replies.length > 1) editor.doLines(["end", "undo"]);
    return this.sayRefusal(done);
  }

  // Does lines for a dialog: gives null, or where one was refused what the dialog says, and the field that a code is about.
  async attempt(lines, fields = {}) {
    const done = await this.editor.send(lines);
    if (done.isAccepted) return this.bubble.hide();
    return { words: saidOf(done), field: fields[done.refusal?.code] };
  }

  sayRefusal(done) {
    if (done.barred || done.refusal) this.say(saidOf(done));
    else this.bubble.hide();
    return done;
  }

  // Says more behind what stands there.
  sayMore(words) {
    return this.say(`${this.bubble.words} ${words}`);
  }

  moveHand(x, y) {
    [this.handX, this.handY] = [x, y];
  }

  moveToField() {
    if (!isField(document.activeElement)) return;
    const frame = document.activeElement.getBoundingClientRect();
    this.moveHand(frame.left, frame.top - 44);
  }

  // Says something where the hand is.
  say(words) {
    this.bubble.show(words, this.handX, this.handY);
    return null;
  }
}
