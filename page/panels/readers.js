// SPDX-License-Identifier: MIT OR Apache-2.0
// What a reader of the screen is told: which part of the page is what, by roles and names, and how things stand, by states. The panels mark
// by classes what is chosen, pressed or folded; here each mark becomes a state, so that both tell the same.
import { isLocked } from "../tools/barred_layers.js";
import { byId, element } from "./dom.js";

// The parts that stand there all the time: [selector, attributes].
const PARTS = [
  ["#file-actions", { role: "toolbar", "aria-label": "Files" }],
  ["#tools", { role: "toolbar", "aria-label": "Tools" }],
  ["#turns", { role: "toolbar", "aria-label": "Undo and redo" }],
  ["#looks", { role: "toolbar", "aria-label": "The view" }],
  ["#layer-actions", { role: "toolbar", "aria-label": "What is done with layers" }],
  ["#tileset-actions", { role: "toolbar", "aria-label": "What is done with tilesets" }],
  ["#page-actions", { role: "toolbar", "aria-label": "The page" }],
  ["#tabs", { role: "tablist", "aria-label": "Maps" }],
  ["#layers", { role: "tree", "aria-label": "Layers" }],
  ["#steps", { role: "listbox", "aria-label": "Steps" }],
  ["#objects", { role: "listbox", "aria-label": "Objects" }],
  ["#lines", { role: "log", "aria-label": "Log", "aria-live": "off", tabindex: "0" }],
  ["#palette", { role: "application", "aria-label": "Tiles", "aria-describedby": "tile-row", tabindex: "0" }],
  ["#view", { role: "application", "aria-label": "Map", "aria-describedby": "place", tabindex: "0" }],
  ["#left", { "aria-label": "Tiles and properties" }],
  ["#right", { "aria-label": "Layers, objects and steps" }],
  ["#bubble", { "aria-hidden": "true" }],
  ["#view canvas, .scroll, #stamp", { "aria-hidden": "true" }],
];

// Buttons that stay pressed.
const PRESSED = "#tools button, #grid, #turn-names, #turn-mini-map, #macro, #of-map, #of-layer, #of-object";
const HAS_LETTER = /[\p{L}\p{N}]/u;

const textOf = (row, part) => row.querySelector(part)?.textContent ?? "";
const put = (at, attributes) => Object.entries(attributes).forEach(([name, value]) => value === null ? at.removeAttribute(name) : at.setAttribute(name, value));
const listed = (...words) => words.filter(word => word).join(", ");

export class Readers {
  constructor(bench, layers) {
    // The buttons that were named here.
    Object.assign(this, { bench, layers, named: new WeakSet() });
    for (const [selector, attributes] of PARTS) for (const each of document.querySelectorAll(selector)) put(each, attributes);
    this.announcement = element("div", { id: "announcement", role: "status" });
    document.body.append(this.announcement);
    this.rules = [
      [PRESSED, at => put(at, { "aria-pressed": at.classList.contains("on") })],
      ["button", at => this.nameButton(at)],
      ["#tabs .tab", at => this.tellTab(at)],
      ["#layers li", at => this.tellLayer(at)],
      ["#steps li[data-place]", at => this.tellStep(at)],
      ["#objects li[data-object], #objects li[data-layer], #file-list li", at => this.tellOption(at)],
      ["#file-list", at => put(at, { role: "listbox", "aria-label": "Files" })],
      [".panel", at => put(at.querySelector("h2"), { role: "button", tabindex: "0", "aria-expanded": !at.classList.contains("folded") })],
      ["#properties tr", at => this.nameFields(at)],
    ];
    this.tell([document.body, ...document.body.querySelectorAll("*")]);
    const watcher = new MutationObserver(records => this.tell(this.changed(records)));
    watcher.observe(document.body, { subtree: true, childList: true, attributes: true, attributeFilter: ["class", "title"] });
    // What is said at the hand is told here, in a part that always stands there.
    new MutationObserver(() => this.say(byId("bubble").textContent)).observe(byId("bubble"), { childList: true });
    bench.editor.addEventListener("state", () => this.nameMap());
    // A row of the list that has the focus is told by that.
    bench.addEventListener("layer chosen", () => document.activeElement.closest("#layers") || this.say(`Layer ${bench.layer?.data.name ?? ""}`));
    document.addEventListener("keydown", event => this.press(event));
  }

  // What has come or has other marks; and the row that it stands in, whose name is of all its parts.
  changed(records) {
    const found = new Set();
    for (const { type, target, addedNodes } of records) {
      const roots = type === "attributes" ? [] : [...addedNodes].filter(node => node instanceof Element);
      const row = target.closest("li, .tab, tr");
      for (const each of [target, row ?? target, ...roots, ...roots.flatMap(root => [...root.querySelectorAll("*")])]) found.add(each);
    }
    return found;
  }

  tell(elements) {
    for (const each of elements) for (const [selector, rule] of this.rules) if (each.matches(selector)) rule(each);
  }

  say(words) {
    this.announcement.textContent = words;
  }

  nameMap() {
    const { active, file } = this.bench.editor.state;
    put(byId("view"), { "aria-label": active ? `Map ${file ?? active}` : "Map: none is open" });
  }

  // A sign is no name: its title is, where the button has no name of its own.
  nameButton(at) {
    if (!at.title || HAS_LETTER.test(at.textContent) || (at.ariaLabel && !this.named.has(at))) return;
    this.named.add(at);
    put(at, { "aria-label": at.title });
  }

  nameFields(row) {
    const name = row.querySelector("td span")?.textContent ?? "";
    for (const field of row.querySelectorAll("input, select, textarea")) {
      const label = field.closest(".value")?.previousElementSibling;
      const words = listed(name, label?.matches(".part") && label.textContent, field.type === "range" && "slider", field.matches(".type") && "type") || "type";
      if (!field.placeholder || name) put(field, { "aria-label": words });
    }
  }

  tellTab(at) {
    const isUnsaved = at.classList.contains("unsaved");
    const name = at.querySelector("span:not(.mark)")?.textContent ?? "";
    put(at, { role: "tab", "aria-selected": at.classList.contains("on"), "aria-label": listed(name, isUnsaved && "not saved"), "aria-controls": "view" });
  }

  tellLayer(at) {
    const layer = this.bench.map?.layer(Number(at.dataset.layer));
    if (!layer) return;
    const isGroup = layer.type === "group";
    const words = listed(textOf(at, ".name"), textOf(at, ".kind"), layer.data.visible === false && "hidden", isLocked(layer) && "locked");
    put(at, { role: "treeitem", "aria-level": layer.depth + 1, "aria-selected": at.classList.contains("now"), "aria-label": words,
      "aria-expanded": isGroup ? !this.layers.folded.has(layer.id) : null });
    for (const each of at.querySelectorAll("button")) each.tabIndex = -1;
    // That a group is folded is a state of its row.
    put(at.querySelector(".fold"), { "aria-hidden": "true" });
  }

  tellStep(at) {
    const words = listed(`${textOf(at, ".number")} ${textOf(at, ".name")}`, textOf(at, ".kind"), textOf(at, ".clean"), at.classList.contains("undone") && "undone");
    put(at, { role: "option", "aria-selected": at.classList.contains("now"), "aria-label": words });
  }

  tellOption(at) {
    put(at, { role: "option", "aria-selected": at.classList.contains("now") });
  }

  // A head of a panel is pressed by keys as a button is.
  press(event) {
    const at = event.target;
    if (!["Enter", " "].includes(event.key) || at.tagName !== "H2" || at.getAttribute("role") !== "button") return;
    event.preventDefault();
    event.stopImmediatePropagation();
    at.click();
  }
}
