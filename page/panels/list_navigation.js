// SPDX-License-Identifier: MIT OR Apache-2.0
// Lists by keys: Tab reaches a list at its chosen row, and arrow keys go through its rows.
import { byId, isField } from "./dom.js";
import { callsOf, pressed } from "../tools/key_tables.js";

const UP_AND_DOWN = ["arrowup", "arrowdown"];
const GO = "Go to another row; a layer or an object is chosen at once";
const NAMES = ["place", "layer", "object", "document"];
const keyOf = row => NAMES.map(name => row.dataset[name] ?? "").join(" ");

export class ListNavigation {
  // `selector` finds the rows; `arrows` are the keys to the row before and behind, and `go` says so; `follows` tells whether a row is chosen
  // as soon as it is gone to; `more` is a table of other keys, each with a call that is given the row.
  constructor(id, { title, selector, arrows = UP_AND_DOWN, go = GO, follows = false, more = [] }) {
    Object.assign(this, { list: byId(id), selector, follows, at: null, hasFocus: false });
    this.group = { title, rows: this.table(arrows, go, more) };
    this.calls = callsOf(this.group.rows);
    this.list.addEventListener("keydown", event => this.press(event));
    this.list.addEventListener("mousedown", event => this.keepFocus(event));
    this.list.addEventListener("focusin", event => this.enter(event));
    document.addEventListener("focusin", event => (this.hasFocus = this.list.contains(event.target)));
    document.addEventListener("pointerdown", () => (this.hasFocus = false), true);
    new MutationObserver(() => this.settle()).observe(this.list, { childList: true, subtree: true, attributes: true, attributeFilter: ["class"] });
    this.settle();
  }

  get rows() {
    return [...this.list.querySelectorAll(this.selector)];
  }

  // One row is reached by Tab: the one that had the focus, or else the chosen one, or else the first. The focus stays where rows are made anew.
  settle() {
    const { rows } = this;
    const isLost = this.hasFocus && document.activeElement === document.body && !document.querySelector("dialog[open]");
    const chosen = rows.find(row => row.matches(".now, .on"));
    const had = rows.find(row => keyOf(row) === this.at);
    this.reach((this.hasFocus ? had ?? chosen : chosen ?? had) ?? rows[0] ?? null);
    if (isLost) this.row?.focus({ preventScroll: true });
  }

  reach(row) {
    if (this.row === row) return;
    this.row?.removeAttribute("tabindex");
    this.row = row;
    if (row) row.tabIndex = 0;
  }

  enter(event) {
    const row = event.target.closest(this.selector);
    if (row) this.at = keyOf(row);
  }

  // A click leaves the keys to the map; a field is left.
  keepFocus(event) {
    if (event.target.closest("button, input")) return;
    event.preventDefault();
    if (isField(document.activeElement)) document.activeElement.blur();
  }

  table(arrows, go, more) {
    return [
      [arrows, go, ([x, y], { target }) => this.go(target, x + y)],
      [["home", "end"], "The first row, and the last one", (_, { target, key }) => this.go(target, key === "Home" ? -Infinity : Infinity)],
      [["enter"], "Does what a click does", (_, { target }) => target.click()],
      ...more.map(([keys, text, call]) => [keys, text, (_, { target }) => call(target)]),
    ];
  }

  // An arrow key with Shift is for nothing here; with Ctrl, too, it moves the layer.
  press(event) {
    if (!event.target.matches(this.selector)) return;
    pressed(this.calls, event);
    if (event.shiftKey && !event.ctrlKey && !event.metaKey && event.key.startsWith("Arrow")) event.stopPropagation();
  }

  go(row, by) {
    const { rows } = this;
    const found = rows[Math.max(0, Math.min(rows.length - 1, rows.indexOf(row) + by))];
    this.at = keyOf(found);
    this.reach(found);
    found.focus();
    if (this.follows) found.click();
  }
}

// The lists of the page.
export function bindLists(bench, documents, layers) {
  const layerOf = row => bench.map.layer(Number(row.dataset.layer));
  const turnFold = (row, isFolded) => {
    const layer = layerOf(row);
    if (layer.type === "group" && layers.folded.has(layer.id) !== isFolded) layers.fold(layer.id);
  };
  const turnSeen = row => void bench.act([`layer show ${row.dataset.layer} ${layerOf(row).data.visible !== false ? "no" : "yes"}`]);
  const click = [["space"], "Does what a click does", row => row.click()];
  const ofLayers = [
    [["arrowright"], "Unfolds a group", row => turnFold(row, false)],
    [["arrowleft"], "Folds a group", row => turnFold(row, true)],
    [["space"], "Hides or shows the layer", turnSeen],
    [["f2"], "Renames the layer", () => void layers.rename()],
    [["delete"], "Removes the layer", () => layers.remove()],
  ];
  const ofTabs = [click, [["delete"], "Closes the map", row => void documents.close(row.dataset.document)]];
  return [
    new ListNavigation("tabs", { title: "The tabs", selector: ".tab", arrows: ["arrowleft", "arrowright"], go: "Go to another tab", more: ofTabs }),
    new ListNavigation("layers", { title: "The layers", selector: "li", follows: true, more: ofLayers }),
    new ListNavigation("objects", { title: "The objects", selector: "li[data-object], li[data-layer]", follows: true }),
    new ListNavigation("steps", { title: "The steps", selector: "li[data-place]", more: [click] }),
  ];
}

// The keys of some lists in groups: what they have in common stands once.
export function groupsOfLists(lists) {
  const all = lists.map(({ group }) => group);
  const nameOf = ([keys, text]) => `${keys.join(" ")} ${text}`;
  const countOf = row => all.filter(({ rows }) => rows.some(each => nameOf(each) === nameOf(row))).length;
  const common = all.flatMap(({ rows }) => rows.filter(row => countOf(row) > 1));
  const once = [...new Map(common.map(row => [nameOf(row), row])).values()];
  const own = all.map(({ title, rows }) => ({ title: `${title}, by Tab`, rows: rows.filter(row => countOf(row) === 1) }));
  return [{ title: "A list, by Tab", rows: once }, ...own.filter(({ rows }) => rows.length)];
}
