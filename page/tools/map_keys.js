// SPDX-License-Identifier: MIT OR Apache-2.0
// The map and the tiles by keys. Where Tab has reached the map, arrow keys move a cell of the keys, and Enter does there what a click does.
import { byId } from "../panels/dom.js";
import { ARROW_KEYS, callsOf, pressed } from "./key_tables.js";

const WITH_SHIFT = ARROW_KEYS.map(key => `Shift+${key}`);
// How many cells an arrow key goes with Shift, and how near to an edge of the view the cell may come, in pixels of the page.
const FAR = 10;
const EDGE = 24;

const within = (place, most) => Math.max(0, Math.min(most - 1, place));

export class MapKeys {
  // `say` tells readers of the screen something.
  constructor(tools, say) {
    Object.assign(this, { tools, say, bench: tools.bench, view: tools.bench.view, cell: null });
    this.box = this.view.box;
    // A press of the mouse leaves the keys to the page.
    this.box.addEventListener("mousedown", event => event.target.closest("button, input, select, a") || event.preventDefault());
    this.box.addEventListener("focus", () => this.box.matches(":focus-visible") && this.bench.map && this.show());
    this.bench.editor.addEventListener("map", () => this.follow(this.bench.editor.shift));
    this.box.addEventListener("blur", () => tools.held || tools.leave());
    this.group = { title: "On the map, by Tab", rows: this.rows() };
    const calls = callsOf(this.group.rows);
    this.box.addEventListener("keydown", event => event.target === this.box && this.bench.map && pressed(calls, event));
  }

  rows() {
    return [
      [[...ARROW_KEYS, ...WITH_SHIFT], "Move the cell of the keys, with Shift by ten", (to, event) => this.move(to, event)],
      [["enter"], "Does there what a click does; what is dragged begins, and ends by another Enter", (_, event) => this.enter(event)],
      [["Shift+enter"], "Draws a line from the last cell; Select adds", (_, event) => this.enter(event)],
    ];
  }

  // All in the map has moved.
  follow([right, down]) {
    if (this.cell) this.cell = [this.cell[0] + right, this.cell[1] + down];
  }

  // A cell as near as the keys come to it: an infinite map has no edge.
  kept([x, y]) {
    const { map, editor } = this.bench;
    return editor.chunks() ? [x, y] : [within(x, map.width), within(y, map.height)];
  }

  // The cell of the keys, in the map: at first the one in the middle of the view.
  place() {
    const frame = this.box.getBoundingClientRect();
    const middle = { clientX: frame.left + frame.width / 2, clientY: frame.top + frame.height / 2 };
    const [x, y] = this.cell ?? this.view.placeOf(middle).cell;
    return (this.cell = this.kept([x, y]));
  }

  // An object that is chosen takes the arrow keys.
  move([x, y], event) {
    if (this.tools.name === "objects" && this.bench.objectId !== null) return false;
    const by = event.shiftKey ? FAR : 1;
    const [column, row] = this.place();
    this.cell = this.kept([column + x * by, row + y * by]);
    this.show(event);
    return true;
  }

  // Moves the view to where the cell is seen, shows the tool there, and tells what is there.
  show(event) {
    const [x, y] = this.view.middleOf(...this.place());
    const frame = this.box.getBoundingClientRect();
    const over = (at, from, to) => Math.round((at < from + EDGE ? from + EDGE - at : at > to - EDGE ? to - EDGE - at : 0) * this.view.ratio);
    const [right, down] = [over(x, frame.left, frame.right), over(y, frame.top, frame.bottom)];
    if (right || down) this.view.pan(right, down);
    this.point("pointermove", event);
    this.say(byId("place").textContent);
  }

  enter(event) {
    this.place();
    const isBegun = this.tools.held !== null;
    if (!isBegun) this.point("pointerdown", event);
    if (isBegun || !this.tools.now.isDragged) this.point("pointerup", event);
    // A press takes the focus from all fields.
    if (!document.querySelector("dialog[open]")) this.box.focus({ preventScroll: true });
    this.say(byId("place").textContent);
  }

  // What the hand would do at the cell.
  point(kind, event) {
    const [clientX, clientY] = this.view.middleOf(...this.cell);
    const { shiftKey = false, ctrlKey = false } = event ?? {};
    this.box.dispatchEvent(new PointerEvent(kind, { clientX, clientY, shiftKey: shiftKey && kind !== "pointermove", ctrlKey, button: 0, bubbles: true }));
  }
}

// The tiles of the palette: arrow keys take another one, with Shift a rectangle of them.
export class TileKeys {
  constructor(palette) {
    this.palette = palette;
    this.at = this.from = [0, 0];
    const rows = [
      [ARROW_KEYS, "Take another tile", to => this.move(to, false)],
      [WITH_SHIFT, "Take several tiles", to => this.move(to, true)],
    ];
    this.group = { title: "On the tiles, by Tab", rows };
    const calls = callsOf(rows);
    palette.canvas.addEventListener("keydown", event => pressed(calls, event));
    palette.canvas.addEventListener("mousedown", event => event.preventDefault());
  }

  move([x, y], isMore) {
    const { palette } = this;
    if (!palette.tileset) return false;
    this.at = [within(this.at[0] + x, palette.columns), within(this.at[1] + y, palette.rows)];
    if (!isMore) this.from = this.at;
    palette.takeTiles(this.from, this.at);
    palette.tell(this.at);
    return true;
  }
}
