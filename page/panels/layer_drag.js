// SPDX-License-Identifier: MIT OR Apache-2.0
// A drag of a layer in the list: a line shows where the layer would go, in its group, in another one or in none, and one line of the session
// is sent at the end.
import { ListDrag } from "./list_drag.js";
import { layersIn, lineTo, whyNotInto } from "../tools/layer_places.js";

// How much farther to the right the rows of a group begin, in pixels.
export const INDENT = 14;
// Which part of the row of a group, above and below its middle, is that of what goes into it.
const INTO = 0.25;

const within = (number, least, most) => Math.max(least, Math.min(most, number));

export class LayerDrag extends ListDrag {
  constructor(panel) {
    super(panel.bench, panel.list);
    this.panel = panel;
  }

  idAt(event) {
    const row = this.panel.rowOf(event);
    return row && !event.target.closest("button, input") ? Number(row.dataset.layer) : null;
  }

  begun() {
    this.panel.rows.get(this.from.id)?.classList.add("dragged");
  }

  get layer() {
    return this.bench.map?.layer(this.from.id) ?? null;
  }

  // Where the layer would go at a place of the window: { group, place, mark, row, depth, why }, with the row at which that is shown, by the
  // class `mark`, how deep it would stand, and why it cannot go there, or "".
  goalAt(x, y) {
    const { layer, panel: { listed } } = this;
    if (!layer) return null;
    const frames = listed.map(each => this.rowOf(each).getBoundingClientRect());
    const found = frames.findIndex(({ bottom }) => y < bottom);
    const at = found < 0 ? listed.length - 1 : found;
    const share = within((y - frames[at].top) / frames[at].height, 0, 1);
    const isInto = listed[at].type === "group" && Math.abs(share - 0.5) < INTO;
    const goal = isInto ? this.topOf(listed[at]) : this.gap(at + (share < 0.5 ? 0 : 1), x);
    const isSame = listed[at] === layer || (goal.group === layer.group && goal.place === layer.place);
    return { ...goal, isSame, why: isSame ? "" : whyNotInto(this.bench.map, layer, goal.group) };
  }

  rowOf({ id }) {
    return this.panel.rows.get(id);
  }

  // On top of all in a group.
  topOf(group) {
    return { group, place: this.others(group).length, row: this.rowOf(group), mark: "drop-into", depth: group.depth + 1 };
  }

  // The layers of a group but the one that is dragged.
  others(group) {
    return layersIn(this.bench.map, group).filter(each => each !== this.layer);
  }

  // Between a row and the one above it. Where a group ends there, the layer stays as deep as it was, or as the hand has gone to the side.
  gap(at, x) {
    const { listed } = this.panel;
    const [above, below] = [listed[at - 1] ?? null, listed[at] ?? null];
    const wanted = this.layer.depth + Math.round((x - this.from.x) / INDENT);
    const isAtBelow = !above || (below && (below.group === above || wanted <= below.depth));
    if (isAtBelow) return this.beside(below, 1, { row: this.rowOf(below), mark: "drop-above" });
    let over = above;
    while (over.depth > Math.max(wanted, below?.depth ?? 0)) over = over.group;
    return this.beside(over, 0, { row: this.rowOf(above), mark: "drop-below" });
  }

  // Below a layer in its group, or by 1 above it.
  beside(other, by, shown) {
    const place = this.others(other.group).filter(each => each.place < other.place + by).length;
    return { group: other.group, place, depth: other.depth, ...shown };
  }

  mark() {
    const { goal } = this;
    this.unmark();
    if (goal && !goal.isSame && !goal.why) goal.row.classList.add(goal.mark);
    this.list.style.setProperty("--drop-from", `${(goal?.depth ?? 0) * INDENT}px`);
    this.list.classList.toggle("no-drop", Boolean(goal?.why));
  }

  drop(goal, id) {
    const layer = this.bench.map?.layer(id);
    if (!layer || goal.isSame) return;
    if (goal.why) this.bench.say(goal.why);
    else this.bench.act([lineTo(layer, goal.group, goal.place)]);
  }
}
