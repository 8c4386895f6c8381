// SPDX-License-Identifier: MIT OR Apache-2.0
// Where bars stand over the map: messages, and the tasks of the lesson. They push nothing aside, and cover neither what was drawn last nor
// where the hand has pressed last. Where none of their places is free of what was drawn, a button below the map has them.
import { isApart } from "./bubble.js";
import { button, byId } from "./dom.js";

// Their places in the view, the best one first.
const PLACES = ["bottom", "top", "bottom-left", "bottom-right", "top-left", "top-right"];
// How far from a press they stand, in pixels of the page.
const NEAR = 24;

export class Bars {
  constructor({ bench, view }) {
    Object.assign(this, { box: byId("bars"), pressed: null, isAsked: false, free: [() => view.drawnBox(), () => this.pressed, () => this.said(bench)] });
    this.all = button("Messages", "Shows the messages, over what was drawn", () => this.ask(), { id: "messages", hidden: true });
    byId("turn-log").before(this.all);
    view.box.addEventListener("pointerdown", event => this.keepPress(event), true);
    const watcher = new ResizeObserver(() => {
      this.isShown = this.box.offsetHeight > 0;
      this.place();
    });
    for (const each of [this.box, byId("stage")]) watcher.observe(each);
    bench.addEventListener("free", () => this.place());
    view.onDrawn = () => bench.isHeld || this.place();
  }

  keepPress({ clientX, clientY }) {
    this.isAsked = false;
    this.pressed = { left: clientX - NEAR, top: clientY - NEAR, right: clientX + NEAR, bottom: clientY + NEAR };
  }

  // What is said at the hand.
  said({ bubble }) {
    return bubble.box.hidden ? null : bubble.box.getBoundingClientRect();
  }

  // `call` gives one more box of the window that they do not cover, or null.
  keepFree(call) {
    this.free.push(call);
  }

  // They stay where they are as long as that is free.
  place() {
    const { box } = this;
    if (!this.isShown) return this.showAside(false);
    const kept = this.free.map(call => call()).filter(each => each);
    const isFree = place => {
      box.dataset.at = place;
      const frame = box.getBoundingClientRect();
      return kept.every(each => isApart(frame, each));
    };
    const at = [box.dataset.at ?? PLACES[0], ...PLACES].find(isFree) ?? null;
    if (at === null) this.placeApart();
    else box.dataset.at = at;
    this.showAside(at === null && this.covers());
  }

  // Where no place is free of all, one that is free of what was drawn is taken.
  placeApart() {
    const place = PLACES.find(each => {
      this.box.dataset.at = each;
      return !this.covers();
    });
    this.box.dataset.at = place ?? PLACES[0];
  }

  // Whether they stand over what was drawn last.
  covers() {
    const drawn = this.free[0]();
    return drawn !== null && !isApart(this.box.getBoundingClientRect(), drawn);
  }

  showAside(isAside) {
    const isHidden = isAside && !this.isAsked && byId("notice-bars").childElementCount > 0;
    this.box.classList.toggle("aside", isHidden);
    this.all.hidden = !isHidden;
    const count = byId("notice-bars").childElementCount;
    this.all.textContent = count === 1 ? "1 message" : `${count} messages`;
  }

  // Shows them over what was drawn, until the next press on the map.
  ask() {
    this.isAsked = true;
    this.place();
  }
}
