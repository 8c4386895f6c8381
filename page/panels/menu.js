// SPDX-License-Identifier: MIT OR Apache-2.0
// A menu in words: it stands at a button or at the hand, and goes behind a choice, a press elsewhere, or Escape.
import { element } from "./dom.js";
import { icon } from "./icons.js";

// How near the edge of the window it comes, in pixels of the page.
const EDGE = 6;
const MOVES = { ArrowDown: 1, ArrowUp: -1, Home: -Infinity, End: Infinity };

// An item is { text, keys, picture, isOn, why, call }: `keys` do the same, `isOn` marks what is chosen or pressed, and with `why` it is grey.
// null is a line between items. A wide menu has parts with heads: { head, items }.
function rowOf(item, choose) {
  if (item === null) return element("hr", {});
  const { text, keys = "", picture = null, isOn = false, why = "" } = item;
  const shown = picture instanceof Element ? picture : picture && icon(picture);
  const parts = [shown || element("span", { className: "icon" }), element("span", { className: "words", textContent: text }), element("span", { className: "keys", textContent: keys })];
  const row = element("button", { type: "button", className: isOn ? "on" : "", title: why, tabIndex: -1, onclick: () => why === "" && choose(item) }, ...parts);
  row.setAttribute("role", "menuitem");
  row.setAttribute("aria-disabled", String(why !== ""));
  return row;
}

class Menu {
  constructor(items, label) {
    this.before = document.activeElement;
    const isWide = Boolean(items[0]?.items);
    this.box = element("div", { id: "menu", ariaLabel: label, className: isWide ? "wide" : "" }, ...(isWide ? items.map(part => this.part(part)) : this.rowsOf(items)));
    this.box.setAttribute("role", "menu");
    this.ground = element("div", { id: "menu-ground", popover: "manual" }, this.box);
    this.ground.onpointerdown = event => event.target === this.ground && this.close();
    this.ground.oncontextmenu = event => event.preventDefault();
    this.ground.onkeydown = event => this.press(event);
  }

  rowsOf(items) {
    return items.filter((item, at) => item !== null || (items[at - 1] && items[at + 1])).map(item => rowOf(item, each => this.choose(each)));
  }

  part({ head, items }) {
    return element("section", {}, element("h3", { textContent: head }), ...this.rowsOf(items));
  }

  get rows() {
    return [...this.box.querySelectorAll("button")];
  }

  // Shows it with its corner at a place of the window, as far as there is room.
  open([x, y]) {
    document.body.append(this.ground);
    this.ground.showPopover();
    const within = (at, length, most) => Math.max(EDGE, Math.min(at, most - length - EDGE));
    this.box.style.left = `${within(x, this.box.offsetWidth, innerWidth)}px`;
    this.box.style.top = `${within(y, this.box.offsetHeight, innerHeight)}px`;
    (this.rows.find(row => row.className === "on") ?? this.rows[0])?.focus();
  }

  // No key goes to the page meanwhile.
  press(event) {
    event.stopPropagation();
    if (event.key === "Escape" || event.key === "Tab") this.close();
    else if (event.key in MOVES) this.go(MOVES[event.key]);
    else if (event.key === "ArrowRight" || event.key === "ArrowLeft") this.goAside(event.key === "ArrowRight" ? 1 : -1);
    else if (event.key.length === 1 && event.key !== " ") this.goTo(event.key.toLowerCase());
    else return;
    event.preventDefault();
  }

  go(by) {
    const { rows } = this;
    const at = rows.indexOf(document.activeElement) + by;
    rows[Number.isFinite(at) ? (at + rows.length) % rows.length : by > 0 ? rows.length - 1 : 0].focus();
  }

  // Goes to the first row of the next part.
  goAside(by) {
    const parts = [...this.box.querySelectorAll("section")];
    const at = parts.findIndex(part => part.contains(document.activeElement));
    parts[(at + by + parts.length) % parts.length]?.querySelector("button")?.focus();
  }

  // Goes to the next row that begins with a letter.
  goTo(letter) {
    const { rows } = this;
    const at = rows.indexOf(document.activeElement) + 1;
    [...rows.slice(at), ...rows.slice(0, at)].find(row => row.textContent.toLowerCase().startsWith(letter))?.focus();
  }

  choose(item) {
    this.close();
    item.call();
  }

  close() {
    this.ground.remove();
    if (this.before !== document.body) this.before?.focus?.({ preventScroll: true });
  }
}

// Shows a menu at a place of the window, [x, y], or below a button.
export function showMenu(items, at, label) {
  const frame = at instanceof Element ? at.getBoundingClientRect() : null;
  new Menu(items, label).open(frame ? [frame.left, frame.bottom + 2] : at);
}
