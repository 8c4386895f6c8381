// SPDX-License-Identifier: MIT OR Apache-2.0
// The wheel and two fingers on the map: they move the view and change its scale.

// How far the wheel turns for a step of the scale, and how far a line and a page are where the browser counts these: in pixels.
const ZOOM_STEP = 60;
const LINE = 40;
// The smallest and the largest scale of a pinch, and how far a finger moves before it draws: in pixels of the page.
const [LEAST, MOST] = [1 / 64, 16];
const NEAR = 4;

export class ViewHand {
  // `press` has the tool in hand take a press, and `cancel` ends what it is about.
  constructor(view, press, cancel) {
    Object.assign(this, { view, press, cancel, turned: 0, pinch: null, waiting: null });
    // The fingers on the map: [x, y] by their ids.
    this.fingers = new Map();
    const { box } = view;
    box.addEventListener("wheel", event => this.wheel(event), { passive: false });
    box.addEventListener("pointerdown", event => this.down(event), true);
    box.addEventListener("pointermove", event => this.move(event), true);
    for (const name of ["pointerup", "pointercancel"]) box.addEventListener(name, event => this.up(event), true);
  }

  // The wheel scrolls, with Shift to the side. With Ctrl, as pads tell a pinch too, it changes the scale at the hand.
  wheel(event) {
    event.preventDefault();
    const [x, y] = this.lengthOf(event);
    if (event.ctrlKey || event.metaKey) return this.zoom(y, event);
    this.turned = 0;
    const isAside = event.shiftKey && x === 0;
    return this.view.pan(-(isAside ? y : x) * this.view.ratio, -(isAside ? 0 : y) * this.view.ratio);
  }

  lengthOf({ deltaX, deltaY, deltaMode }) {
    const unit = [1, LINE, this.view.box.clientHeight][deltaMode] ?? 1;
    return [deltaX * unit, deltaY * unit];
  }

  // A step of the wheel is a step of the scale; small turns, as pads give them, come together.
  zoom(length, event) {
    this.turned += length;
    if (Math.abs(this.turned) < ZOOM_STEP) return;
    const { x, y } = this.view.placeOf(event);
    this.view.zoom(this.turned < 0 ? 1 : -1, x, y);
    this.turned = 0;
  }

  // ---- fingers
  // The press of a finger waits until that moves or goes up: it may be the first one of two.
  down(event) {
    if (event.pointerType !== "touch") return;
    this.fingers.set(event.pointerId, [event.clientX, event.clientY]);
    event.stopPropagation();
    this.waiting = this.fingers.size === 1 ? event : null;
    if (this.fingers.size !== 2) return;
    this.cancel();
    this.pinch = { ...this.span(), scale: this.view.scale };
  }

  move(event) {
    if (!this.fingers.has(event.pointerId)) return;
    this.fingers.set(event.pointerId, [event.clientX, event.clientY]);
    if (this.waiting && Math.hypot(event.clientX - this.waiting.clientX, event.clientY - this.waiting.clientY) > NEAR) this.pressNow();
    if (this.waiting || this.pinch) event.stopPropagation();
    if (this.pinch) this.moveTwo();
  }

  pressNow() {
    const event = this.waiting;
    this.waiting = null;
    this.press(event);
  }

  moveTwo() {
    const span = this.span();
    const { view } = this;
    view.pan((span.x - this.pinch.x) * view.ratio, (span.y - this.pinch.y) * view.ratio);
    const { x, y } = view.placeOf({ clientX: span.x, clientY: span.y });
    view.zoomTo(Math.max(LEAST, Math.min(MOST, this.pinch.scale * span.length / this.pinch.length)), x, y);
    Object.assign(this.pinch, { x: span.x, y: span.y });
  }

  up(event) {
    if (this.waiting?.pointerId === event.pointerId) this.pressNow();
    this.fingers.delete(event.pointerId);
    if (this.fingers.size < 2) this.pinch = null;
  }

  // The middle between two fingers, and how far they are apart.
  span() {
    const [[x0, y0], [x1, y1]] = [...this.fingers.values()];
    return { x: (x0 + x1) / 2, y: (y0 + y1) / 2, length: Math.max(1, Math.hypot(x1 - x0, y1 - y0)) };
  }
}
