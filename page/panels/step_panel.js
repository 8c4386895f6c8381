// SPDX-License-Identifier: MIT OR Apache-2.0
// The steps of the active document: those that were made, each with what it is about, the present place, the clean mark, and those that
// were undone.
import { button, byId, element, putText } from "./dom.js";
import { groupSteps } from "./group_steps.js";
import { putRows, roomFor } from "./list_rows.js";
import { widthOf } from "./text_widths.js";
import { calledStep } from "../core/step_ways.js";

const MORE = 1000;
// How many rows stay in sight where the panels are short of room.
const MOST_IN_SIGHT = 5;
// How many rows stand in a part of the list, and how high one is, in pixels of the page.
const IN_PART = 25;
const ROW_HEIGHT = 24;
// A long list has room for so many rows at once: a row that comes into room that is there has the browser lay out no layer of the page anew.
const ROOM = 5;
const LONG = 100;
// How many pixels of a row neither its text nor its marks have: its edges, the number, and what is between. And how large the letters of the
// marks are beside those of the text.
const NOT_OF_TEXT = 58;
const OF_MARKS = 11 / 13;
// How long the list stands as it is where edits follow one another, in milliseconds: so many times as long as the rows of its last change took,
// which is some half of what the change took.
const SHARE = 40;
const LEAST_TIME = 400;
const MOST_TIME = 2000;

export class StepPanel {
  constructor(bench) {
    this.bench = bench;
    this.editor = bench.editor;
    // The names that layers, objects and tilesets have, or had before they were removed, by their documents.
    this.names = new Map();
    this.editor.addEventListener("objects", ({ detail }) => this.keepObjects(detail));
    // The rows that stand there, by their places: { row, said }, with what each shows.
    this.rows = new Map();
    // The parts of the list in which they stand, by their places.
    this.parts = new Map();
    this.now = null;
    // Whether the list waits, when it was shown last, and what of.
    Object.assign(this, { isLate: false, shownAt: -Infinity, time: LEAST_TIME, shownChange: null, shownDocument: null });
    this.room = 0;
    new ResizeObserver(() => this.takeRoom()).observe(byId("steps"));
  }

  // The list has another size. Where it has another width, other texts have no room; where it is folded it has none.
  takeRoom() {
    const { clientWidth } = byId("steps");
    if (clientWidth && clientWidth !== this.room) {
      this.room = clientWidth;
      this.showAll();
    }
    this.now?.scrollIntoView({ block: "nearest" });
  }

  // What a layer, an object or a tileset is called, or was before the last line.
  nameOf(kind, id) {
    const { map } = this.bench;
    const kept = this.namesNow()[`${kind}s`].get(Number(id));
    const now = { layer: () => map?.layer(Number(id))?.data.name, object: () => map?.object(Number(id))?.object.name };
    return kept || now[kind]?.() || `${kind} ${id}`;
  }

  // The names that are kept of the active document.
  namesNow() {
    const { active } = this.editor.openDocuments;
    if (!this.names.has(active)) this.names.set(active, { layers: new Map(), objects: new Map(), tilesets: new Map() });
    return this.names.get(active);
  }

  // Where edits follow one another quickly, the list waits for some of them: each change of it takes a frame of the screen.
  show() {
    const { active, change } = this.editor.state;
    if (active) this.keepNames();
    if (change === this.shownChange) return;
    const left = active === this.shownDocument ? this.shownAt + this.time - performance.now() : 0;
    if (left <= 0) this.showAll();
    else if (!this.isLate) setTimeout(() => this.showAll(), left);
    this.isLate = left > 0;
  }

  showAll() {
    const { state } = this.editor;
    Object.assign(this, { isLate: false, shownAt: performance.now(), shownChange: state.change, shownDocument: state.active });
    const list = byId("steps");
    if (!state.active) {
      this.rows.clear();
      this.parts.clear();
      list.replaceChildren();
      this.giveRoom(0);
      return;
    }
    const { steps, firstStep, count } = state;
    const later = count - firstStep - steps.length;
    const wanted = [
      firstStep === 0 ? { place: 0, text: "(as it began)", isMacro: false } : { more: "earlier", text: `${firstStep} earlier steps ..` },
      ...steps.map((step, at) => ({ place: firstStep + at + 1, text: this.wordsOf(step), isMacro: step.isMacro })),
      ...(later > 0 ? [{ more: "later", text: `${later} later steps ..` }] : []),
    ];
    // Behind the lines that follow the first one of a stroke each row says what it said.
    if (this.putRows(list, wanted)) this.showNow();
  }

  // Puts rows into the list, and gives whether one is another. That of a place stays, and of it only what it shows otherwise is changed.
  putRows(list, wanted) {
    const rows = new Map();
    let isOther = wanted.length !== this.rows.size;
    for (const each of wanted) {
      const key = each.more ?? each.place;
      const shown = each.more ? each : this.withRoom({ ...each, ...this.looksOf(each) });
      const kept = this.rows.get(key) ?? { row: each.more ? this.more() : this.row(each.place), said: "" };
      const said = JSON.stringify(shown);
      if (kept.said !== said) this.showRow(kept.row, shown);
      isOther ||= kept.said !== said;
      rows.set(key, { row: kept.row, said });
    }
    this.rows = rows;
    if (!isOther) return false;
    this.putParts(list);
    this.giveRoom(rows.size);
    return true;
  }

  // Some rows stay in sight where the panels are short of room, as style.css has it.
  giveRoom(count) {
    roomFor(byId("steps"), count);
    const inSight = Math.min(count, MOST_IN_SIGHT);
    if (inSight !== this.inSight) byId("right").style.setProperty("--steps", inSight);
    this.inSight = inSight;
  }

  // The rows stand in parts, by their places: what is out of sight is laid out and painted by no browser, and a row that comes changes one part.
  putParts(list) {
    const wanted = new Map();
    for (const [key, { row }] of this.rows) {
      const at = key > 0 ? Math.floor((key - 1) / IN_PART) : key;
      if (wanted.has(at)) wanted.get(at).push(row);
      else wanted.set(at, [row]);
    }
    const parts = new Map();
    for (const [at, rows] of wanted) {
      const part = this.parts.get(at) ?? element("ul", { role: "presentation" });
      if (part.childElementCount !== rows.length || rows.some((row, place) => row !== part.children[place])) {
        putRows(part, rows);
        part.style.containIntrinsicHeight = `auto ${rows.length * ROW_HEIGHT}px`;
      }
      parts.set(at, part);
    }
    this.parts = parts;
    putRows(list, [...parts.values()]);
    this.keepRoom([...parts.values()]);
  }

  // The last part of a long list has room for the rows that come next.
  keepRoom(parts) {
    const last = this.rows.size > LONG ? parts.at(-1) : null;
    for (const part of parts) {
      const height = part === last ? `${Math.ceil(part.childElementCount / ROOM) * ROOM * ROW_HEIGHT}px` : "";
      if (part.style.minHeight !== height) part.style.minHeight = height;
    }
  }

  // The row of the present place comes into sight once all else is shown, and before the next frame: what scrolls in a frame takes another one.
  showNow() {
    const now = this.rows.get(this.editor.state.index)?.row ?? null;
    const isOther = now !== this.now;
    this.now = now;
    const done = performance.now() - this.shownAt;
    queueMicrotask(() => {
      const begun = performance.now();
      if (isOther) this.now?.scrollIntoView({ block: "nearest" });
      this.measure(done + performance.now() - begun);
    });
  }

  // Takes how long the rows of a change of the list have taken.
  measure(taken) {
    this.time = Math.max(LEAST_TIME, Math.min(MOST_TIME, SHARE * taken));
  }

  keepNames() {
    const { map } = this.bench;
    if (!map || this.shown === map) return;
    this.shown = map;
    const { layers, objects, tilesets } = this.namesNow();
    for (const { id, data } of map.layers) {
      layers.set(id, data.name);
      for (const object of data.objects ?? []) objects.set(object.id, object.name);
    }
    for (const { firstgid, source, name } of map.data.tilesets) tilesets.set(firstgid, source ?? name);
  }

  // Keeps the names of objects that have come: when they are gone again, no map has them.
  keepObjects(changes) {
    const { objects } = this.namesNow();
    for (const { object } of changes) if (object) objects.set(object.id, object.name);
  }

  // A step, what it is about, and the way in which it was made: `Show Layer · Roof: hidden`. Of the map it is not said.
  wordsOf({ subject, ...step }) {
    const { text, way } = calledStep(step.text, step.way);
    const named = subject && subject.kind !== "map" ? this.nameOf(subject.kind, subject.id) : "";
    const about = [named, way].filter(each => each).join(": ");
    return about ? `${text} · ${about}` : text;
  }

  // How a step stands: among those that are done, whether it is an open macro, and whether it is saved.
  looksOf({ place }) {
    const { index, cleanIndex, count, depth, file, isWriting } = this.editor.state;
    const saved = place !== cleanIndex ? "" : isWriting ? "is being saved" : file === null ? "" : "saved";
    const isOpen = depth > 0 && place === count;
    return { saved, isOpen, isNow: place === index, isUndone: place > index && !isOpen };
  }

  // What a row shows, with the words for its kind, and whether its text is cut off. The browser cuts no other one: each row that it cuts is
  // drawn on its own, and that costs each frame of a stroke.
  withRoom(shown) {
    const kind = shown.isOpen ? "open macro" : shown.isMacro ? "macro" : "";
    const isCut = NOT_OF_TEXT + widthOf(shown.text) + OF_MARKS * (widthOf(kind) + widthOf(shown.saved)) > this.room;
    return { ...shown, kind, isCut };
  }

  row(place) {
    return element("li", { data: { place }, onclick: event => this.click(place, event) },
      element("span", { className: "number", textContent: place }), element("span", { className: "name" }), element("span", { className: "kind" }), element("span", { className: "clean" }));
  }

  // Goes to a step; with Shift groups all from it on up to the present one.
  click(place, { shiftKey }) {
    const { index } = this.editor.stand();
    if (shiftKey && place > 0 && place <= index) return void groupSteps(this.bench, index - place + 1);
    return this.bench.act([`goto ${place}`]);
  }

  // Has a row show how its step stands.
  showRow(row, { more, text, kind: words, saved, isCut, isNow, isUndone }) {
    if (more) {
      row.firstElementChild.textContent = text;
      return;
    }
    const [, name, kind, clean] = row.children;
    for (const [part, said] of [[name, text], [kind, words], [clean, saved]]) putText(part, said);
    if (name.title !== text) name.title = text;
    name.classList.toggle("cut", isCut);
    row.classList.toggle("now", isNow);
    row.classList.toggle("undone", isUndone);
  }

  more() {
    return element("li", {}, button("", "Show more steps", () => {
      this.editor.steps += MORE;
      this.editor.tellSoon();
    }));
  }
}
