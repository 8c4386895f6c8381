// SPDX-License-Identifier: MIT OR Apache-2.0
// What is said where the hand is: for some seconds, or until the next thing works.
import { byId, isField } from "./dom.js";

const SHOWN_FOR = 5000;
// How far from the hand it stands, and how far from the edge of the window at least.
const ASIDE = 14;
const EDGE = 8;
// What it never covers.
const KEPT_FREE = ["copy", "play", "bars"];

// Whether two boxes have nothing in common.
export const isApart = (one, other) => one.right <= other.left || other.right <= one.left || one.bottom <= other.top || other.bottom <= one.top;
const boxAt = (left, top, width, height) => ({ left, top, right: left + width, bottom: top + height });
const within = (place, length, most) => Math.max(EDGE, Math.min(place, most - length - EDGE));

// Where a bubble of a size may stand, the best place first: beside the hand, and then in the corners of the window.
function placesFor(x, y, width, height) {
  const [right, left, below, above] = [x + ASIDE, x - ASIDE - width, y + ASIDE, y - ASIDE - height];
  const [most, lowest] = [innerWidth - width - EDGE, innerHeight - height - EDGE];
  const beside = [[right, below], [right, above], [left, below], [left, above]];
  const corners = [[most, EDGE], [EDGE, EDGE], [EDGE, lowest], [most, lowest]];
  return [...beside, ...corners].map(([toLeft, top]) => boxAt(within(toLeft, width, innerWidth), within(top, height, innerHeight), width, height));
}

export class Bubble {
  // `drawn` gives the box of the window in which something was drawn last, or null.
  constructor(drawn) {
    this.drawn = drawn;
    this.box = byId("bubble");
  }

  show(words, x, y) {
    const { box } = this;
    box.textContent = words.trim();
    box.hidden = false;
    box.style.left = box.style.top = "0";
    const typed = isField(document.activeElement) ? [document.activeElement] : [];
    const free = [...[...KEPT_FREE.map(byId), ...typed].map(each => each.getBoundingClientRect()), boxAt(x - 1, y - 1, 2, 2)];
    const drawn = this.drawn() ?? boxAt(0, 0, 0, 0);
    const places = placesFor(x, y, box.offsetWidth, box.offsetHeight);
    // Where most of what is seen was drawn, what is said stands over it.
    const isFree = boxes => place => boxes.every(each => isApart(place, each));
    const { left, top } = places.find(isFree([...free, drawn])) ?? places.find(isFree(free)) ?? places[0];
    box.style.left = `${left}px`;
    box.style.top = `${top}px`;
    clearTimeout(this.timer);
    this.timer = setTimeout(() => this.hide(), SHOWN_FOR);
  }

  // What it says; "" where it is gone.
  get words() {
    return this.box.hidden ? "" : this.box.textContent;
  }

  hide() {
    this.box.hidden = true;
    clearTimeout(this.timer);
    return null;
  }
}
