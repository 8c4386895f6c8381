// SPDX-License-Identifier: MIT OR Apache-2.0
// A drag of a row in a list: it begins where the hand has moved, the list scrolls at its edges, and Escape ends it.
//
// A list of its own kind has `idAt(event)`, the id of what a press takes, or null; `goalAt(x, y)`, where it would go at a place of the window, or
// null; `mark()`, which shows that; `drop(goal, id)`; and `begun()`, where more is done as the drag begins.

// How far the hand moves before a press is a drag, how near to an edge the list scrolls, and by how much: in pixels.
const FAR = 4;
const EDGE = 14;
const SCROLLED = 6;

export class ListDrag {
  constructor(bench, list) {
    Object.assign(this, { bench, list, from: null, isDragging: false, goal: null });
    list.addEventListener("pointerdown", event => this.down(event));
    list.addEventListener("pointermove", event => this.move(event));
    list.addEventListener("pointerup", () => this.up());
    list.addEventListener("pointercancel", () => this.end());
    document.addEventListener("keydown", event => this.isDragging && event.key === "Escape" && this.cancel(event), true);
  }

  down(event) {
    const id = event.button === 0 ? this.idAt(event) : null;
    if (id !== null) this.from = { id, x: event.clientX, y: event.clientY };
  }

  move(event) {
    if (!this.from) return;
    if (!this.isDragging && Math.hypot(event.clientX - this.from.x, event.clientY - this.from.y) < FAR) return;
    if (!this.isDragging) this.begin(event);
    const frame = this.list.getBoundingClientRect();
    if (event.clientY < frame.top + EDGE) this.list.scrollTop -= SCROLLED;
    if (event.clientY > frame.bottom - EDGE) this.list.scrollTop += SCROLLED;
    this.goal = this.goalAt(event.clientX, event.clientY);
    this.mark();
  }

  begin(event) {
    this.isDragging = true;
    this.begun();
    this.list.setPointerCapture(event.pointerId);
    this.list.classList.add("dragging");
  }

  begun() {}

  up() {
    const { isDragging, goal, from } = this;
    this.end();
    if (isDragging && goal) this.drop(goal, from.id);
  }

  cancel(event) {
    event.stopPropagation();
    this.end();
  }

  unmark() {
    for (const row of this.list.children) row.classList.remove("drop-above", "drop-below", "drop-into");
  }

  end() {
    this.from = this.goal = null;
    this.isDragging = false;
    this.list.classList.remove("dragging", "no-drop");
    this.unmark();
    for (const row of this.list.children) row.classList.remove("dragged");
  }
}
