// SPDX-License-Identifier: MIT OR Apache-2.0
// The bars at the edges of the view: how much of the map is seen, and where; a drag moves the view.
import { element } from "../panels/dom.js";

// The least length of a bar's handle, in pixels of the page.
const LEAST = 28;
const WAYS = [
  { id: "scroll-x", length: "width", origin: "originX", client: "clientX", edge: "left" },
  { id: "scroll-y", length: "height", origin: "originY", client: "clientY", edge: "top" },
];

export class ScrollBars {
  constructor(view) {
    this.view = view;
    this.bars = WAYS.map(way => this.bar(way));
  }

  bar(way) {
    const handle = element("div", { className: "handle" });
    const bar = element("div", { id: way.id, className: "scroll", hidden: true, title: "Moves the map" }, handle);
    bar.setAttribute("aria-hidden", "true");
    bar.onpointerdown = event => this.down(event, bar, way);
    bar.onpointermove = event => this.move(event, bar, way);
    bar.onpointerup = bar.onpointercancel = event => this.up(event, bar);
    this.view.box.append(bar);
    return { ...way, bar, handle };
  }

  // What the bar stands for: the map, and what is seen beside it: { first, all, seen }, in pixels of the screen from the map's edge on.
  range({ length, origin }) {
    const seen = this.view.canvas[length];
    const [width, height] = this.view.sizeOnScreen();
    const map = length === "width" ? width : height;
    const from = -this.view[origin];
    const [first, last] = [Math.min(0, from), Math.max(map, from + seen)];
    return { first, all: last - first, seen, from, map };
  }

  show() {
    for (const each of this.bars) {
      const { first, all, seen, from, map } = this.range(each);
      each.bar.hidden = !this.view.map || (from <= 0 && from + seen >= map);
      const most = each.bar[each.length === "width" ? "clientWidth" : "clientHeight"];
      const length = Math.min(most, Math.max(LEAST, most * seen / all));
      each.handle.style[each.length] = `${length}px`;
      each.handle.style[each.edge] = `${all > seen ? (most - length) * (from - first) / (all - seen) : 0}px`;
    }
  }

  down(event, bar, way) {
    event.stopPropagation();
    event.preventDefault();
    bar.setPointerCapture(event.pointerId);
    const { all, seen } = this.range(way);
    const most = bar[way.length === "width" ? "clientWidth" : "clientHeight"];
    const length = Math.max(LEAST, most * seen / all);
    this.drag = { at: event[way.client], origin: this.view[way.origin], by: (all - seen) / Math.max(1, most - length) };
    if (event.target !== bar) return;
    // A press beside the handle moves the view by what is seen.
    const handle = bar.firstChild.getBoundingClientRect();
    this.pan(way, event[way.client] < handle[way.edge] ? seen : -seen);
    this.drag = null;
  }

  move(event, bar, way) {
    event.stopPropagation();
    if (this.drag) this.pan(way, this.drag.origin - (event[way.client] - this.drag.at) * this.drag.by - this.view[way.origin]);
  }

  up(event, bar) {
    event.stopPropagation();
    bar.releasePointerCapture(event.pointerId);
    this.drag = null;
  }

  pan({ length }, by) {
    this.view.pan(length === "width" ? by : 0, length === "width" ? 0 : by);
  }
}
