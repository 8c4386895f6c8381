// SPDX-License-Identifier: MIT OR Apache-2.0
// A few words beside the hand on the map, as the size of what it is about.
import { element, putText } from "../panels/dom.js";

// How far from the hand they stand, in pixels of the page.
const ASIDE = 14;

export class HandWords {
  constructor(view) {
    this.view = view;
    this.box = element("div", { id: "hand-words", hidden: true });
    view.box.append(this.box);
  }

  // Shows words where the hand is, right of it and below, or else on its other side; none where there are none, or no hand.
  show(words, place) {
    const { box, view } = this;
    box.hidden = !words || !place;
    if (box.hidden) return;
    putText(box, words);
    const beside = (at, length, most) => (at + ASIDE + length <= most ? at + ASIDE : Math.max(0, at - ASIDE - length));
    box.style.left = `${beside(place.x / view.ratio, box.offsetWidth, view.box.clientWidth)}px`;
    box.style.top = `${beside(place.y / view.ratio, box.offsetHeight, view.box.clientHeight)}px`;
  }
}
