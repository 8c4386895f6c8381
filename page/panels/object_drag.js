// SPDX-License-Identifier: MIT OR Apache-2.0
// A drag of objects in their list: it shows where they would go, in their layer or in another one, and sends their lines at the end.
import { ListDrag } from "./list_drag.js";
import { putInto } from "../tools/object_order.js";

export class ObjectDrag extends ListDrag {
  idAt(event) {
    const row = event.target.closest("[data-object]");
    return row && !event.shiftKey && !event.ctrlKey ? Number(row.dataset.object) : null;
  }

  // One of several that are chosen takes these along.
  begun() {
    const { bench, from: { id } } = this;
    if (!bench.objectIds.includes(id)) bench.chooseObject(id);
  }

  // Where they would go at a height: { layer, before, row, isBelow }, where `before` is the object in front of which they come, or null at the
  // end of the layer, and `row` is the one that shows it. null where no row is.
  goalAt(_, y) {
    const rows = [...this.list.querySelectorAll("[data-object], [data-layer]")];
    const row = rows.find(each => y < each.getBoundingClientRect().bottom) ?? rows.at(-1);
    if (!row || y < rows[0].getBoundingClientRect().top) return null;
    if (row.dataset.layer) return { layer: this.bench.map.layer(Number(row.dataset.layer)), before: null, row, isBelow: true };
    const { top, bottom } = row.getBoundingClientRect();
    const { layer } = this.bench.map.object(Number(row.dataset.object));
    const isBelow = y > (top + bottom) / 2;
    return { layer, before: isBelow ? this.behind(layer, Number(row.dataset.object)) : Number(row.dataset.object), row, isBelow };
  }

  // The object behind another one of its layer that does not go along, or null.
  behind(layer, id) {
    const ids = layer.data.objects.map(each => each.id);
    return ids.slice(ids.indexOf(id) + 1).find(each => !this.bench.objectIds.includes(each)) ?? null;
  }

  mark() {
    this.unmark();
    this.goal?.row.classList.add(this.goal.isBelow ? "drop-below" : "drop-above");
    this.list.classList.toggle("no-drop", this.goal === null);
  }

  drop(goal) {
    const { bench } = this;
    if (bench.chosenObjects.some(({ layer }) => bench.barsObjects(layer, "moved"))) return;
    // In front of one that goes along, they come in front of the next one that does not.
    const isAlong = goal.before !== null && bench.objectIds.includes(goal.before);
    putInto(bench, bench.chosenObjects, goal.layer, isAlong ? this.behind(goal.layer, goal.before) : goal.before);
  }
}
