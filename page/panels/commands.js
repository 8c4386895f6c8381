// SPDX-License-Identifier: MIT OR Apache-2.0
// The menu of all that the page does, with its pictures in words and with its keys; and menus on layers, objects, tiles, tabs and the map.
import { NO_MAP, byId } from "./dom.js";
import { iconButton } from "./icons.js";
import { showMenu } from "./menu.js";
import { isLocked, lockLine } from "../tools/barred_layers.js";
import { memberLine } from "../core/member_lines.js";
import { ORDERS, order, putInto } from "../tools/object_order.js";

// The keys in the title of a button, as `Undo (Ctrl+Z)` has them.
const ORDER_PICTURES = { raise: "up", lower: "down", top: null, bottom: null };
const KEYS = /\(((?:(?:Ctrl|Shift)\+)*(?:[A-Z0-9]|F\d+|[+\-/])(?:, [^)]*)?)\)/;
// The parts of the menu: a head, and where its buttons are.
const PARTS = [["Files", "#file-actions button"], ["Tools", "#tools button"], ["Layers", "#layer-actions button"], ["Tiles", "#tileset-actions button"], ["The view", "#looks button"], ["The page", "#page-actions button"]];

// A button as an item of a menu: its name, its picture, its keys, and why it does nothing now.
function itemOf(button) {
  const picture = button.querySelector(".icon")?.cloneNode(true) ?? null;
  const why = button.disabled ? button.title.split(". ").at(-1) : "";
  return { text: button.ariaLabel || button.textContent, picture, keys: (KEYS.exec(button.title)?.[1] ?? "").replace(/, or .*/, ""), why, call: () => button.click() };
}

export class Commands {
  // `page` has the parts that commands are about.
  constructor(page) {
    Object.assign(this, { page, bench: page.bench });
    byId("file-actions").prepend(iconButton("list", "Menu", "Menu: all that the page does, in words (F10)", () => this.show(), { id: "menu-button" }));
    const at = (id, itemsFor) => (byId(id).oncontextmenu = event => this.open(event, itemsFor(event)));
    at("layers", event => this.layerItems(event.target.closest("[data-layer]")));
    at("objects", event => this.objectItems(event.target.closest("[data-object]")));
    at("palette", () => this.tileItems());
    at("tabs", event => this.tabItems(event.target.closest(".tab")));
    page.view.box.oncontextmenu = event => this.open(event, this.mapItems(event));
  }

  open(event, items) {
    event.preventDefault();
    if (items.length) showMenu(items, [event.clientX, event.clientY], "What can be done here");
  }

  show() {
    const parts = PARTS.map(([head, css]) => ({ head, items: [...document.querySelectorAll(css)].filter(each => each.id !== "menu-button").map(itemOf) }));
    parts[0].items.push(...this.page.recent.items());
    parts.find(({ head }) => head === "Layers").items.push(...this.page.layers.acts.items());
    const objects = { head: "Objects", items: this.orderItems(this.bench.chosenObjects.length ? "" : "Choose an object first") };
    showMenu([parts[0], { head: "Edit", items: this.editItems() }, objects, ...parts.slice(1)], byId("menu-button"), "Menu");
  }

  // ---- what is edited
  editItems() {
    const { bench } = this;
    const why = bench.map ? "" : NO_MAP;
    const { clips } = this.page;
    return [
      ...["undo", "redo"].map(id => itemOf(byId(id))), ...this.clipItems(why),
      { text: "Select all", keys: "Ctrl+A", why, call: () => clips.selectAll() },
      { text: "Select nothing", keys: "Ctrl+Shift+A", why: why || clips.whyNot("selectNone"), call: () => clips.selectNone() },
      ...["take", "macro", "group-steps"].map(id => itemOf(byId(id))),
    ];
  }

  clipItems(why = "") {
    const { clips } = this.page;
    return [["Cut", "X", "cut"], ["Copy", "C", "copy"], ["Paste", "V", "paste"], ["Duplicate", "D", "duplicate"]].map(([text, key, call]) => ({ text, keys: `Ctrl+${key}`, why: why || clips.whyNot(call), call: () => clips[call]() }))
      .concat({ text: "Delete", keys: "Del", picture: "remove", why: why || clips.whyNot("remove"), call: () => clips.remove() });
  }

  // ---- menus at what is under the hand
  layerItems(row) {
    const { bench, page: { layers } } = this;
    const layer = row && bench.map?.layer(Number(row.dataset.layer));
    if (!layer) return [];
    bench.chooseLayer(layer.id);
    const [isSeen, locked] = [layer.data.visible !== false, isLocked(layer)];
    const buttons = ids => ids.map(id => itemOf(byId(id)));
    return [
      { text: "Rename", keys: "F2", picture: "rename", call: () => layers.rename() },
      { text: isSeen ? "Hide" : "Show", picture: isSeen ? "hidden" : "seen", call: () => bench.act([`layer show ${layer.id} ${isSeen ? "no" : "yes"}`]) },
      { text: locked ? "Unlock" : "Lock", picture: locked ? "unlocked" : "locked", call: () => bench.act([lockLine(layer, !locked)]) },
      null, ...buttons(["layer-up", "layer-down"]), null, ...layers.acts.items(), null,
      ...buttons(["add-tile-layer", "add-object-layer", "add-image-layer", "add-group-layer"]), null, ...buttons(["remove-layer"]),
    ];
  }

  objectItems(row) {
    const { bench } = this;
    const id = Number(row?.dataset.object);
    if (!bench.map?.object(id)) return [];
    if (!bench.objectIds.includes(id)) bench.chooseObject(id);
    return this.chosenItems();
  }

  chosenItems() {
    const { bench, page: { objects } } = this;
    const all = bench.chosenObjects.map(({ object }) => object);
    const isSeen = all.some(({ visible }) => visible !== false);
    const lines = all.map(({ id }) => memberLine(`object:${id}`, "visible", !isSeen));
    const turn = () => !bench.barsChosen(isSeen ? "hidden" : "shown") && (lines.length > 1 ? bench.doAsOne("Show Objects || show objects", lines) : bench.act(lines));
    const rename = { text: "Rename", keys: "F2", picture: "rename", why: all.length > 1 ? "Choose one object alone" : "", call: () => objects.renameChosen() };
    return [rename, { text: isSeen ? "Hide" : "Show", picture: isSeen ? "hidden" : "seen", call: turn }, null, ...this.orderItems(), null, ...this.clipItems()];
  }

  // What puts the chosen objects above or below others, or into another layer.
  orderItems(why = "") {
    const { bench, page: { tools } } = this;
    const onChosen = call => tools.all.objects.onChosen("moved", call);
    const orders = Object.entries(ORDERS).map(([how, [text]]) => ({ text, why, picture: ORDER_PICTURES[how], call: () => onChosen(all => order(bench, all, how)) }));
    const here = new Set(bench.chosenObjects.map(({ layer }) => layer));
    const others = (bench.map?.layers ?? []).filter(layer => layer.type === "objectgroup" && !(here.size === 1 && here.has(layer))).reverse();
    const into = layer => ({ text: `Move to ${layer.data.name || "(no name)"}`, why, picture: "objects", call: () => onChosen(all => putInto(bench, all, layer)) });
    return [...orders, ...(here.size ? others.map(into) : [])];
  }

  tileItems() {
    const { bench, page: { tools } } = this;
    if (!bench.map) return [];
    const take = name => [["brush", "Draw with the stamp"], ["fill", "Fill with the stamp"], ["rectangle", "Fill a rectangle with the stamp"]].find(([each]) => each === name)[1];
    const items = ["brush", "fill", "rectangle"].map(name => ({ text: take(name), picture: name, call: () => tools.choose(name) }));
    const insert = { text: "Insert the tile as an object", picture: "insert", call: () => (tools.choose("insert"), tools.all.insert.take("tile")) };
    return [...items, insert, null, ...["palette-larger", "palette-smaller", "add-tileset", "replace-tileset", "remove-tileset"].map(id => itemOf(byId(id)))];
  }

  tabItems(tab) {
    const { bench, page: { documents, editor } } = this;
    const name = tab?.dataset.document;
    const document = editor.openDocuments.byName.get(name);
    if (!document) return [];
    const all = editor.documents();
    const others = all.filter(each => each.name !== name);
    const close = async names => {
      for (const each of names) await documents.close(each);
    };
    return [
      { text: "Show", why: all.find(each => each.name === name).isActive ? "It is shown already" : "", call: () => bench.act([`use ${name}`]) },
      { text: "Save", keys: "Ctrl+S", picture: "save", call: () => documents.saveOf(document) },
      { text: "Save as", keys: "Ctrl+Shift+S", picture: "saveAs", call: () => documents.saveAs(document) }, null,
      { text: "Close", picture: "close", call: () => documents.close(name) },
      { text: "Close the others", why: others.length ? "" : "No other map is open", call: () => close(others.map(each => each.name)) },
      { text: "Close all that are saved", call: () => close(all.filter(each => each.isClean).map(each => each.name)) },
    ];
  }

  // On the map the right button takes tiles where the tool stamps them.
  mapItems(event) {
    const { bench, page: { tools } } = this;
    if (!bench.map || tools.held) return [];
    if (tools.name === "select") return [...this.clipItems(), null, ...this.editItems().filter(({ text }) => text.startsWith("Select") || text.startsWith("Take"))];
    if (tools.name !== "objects" && tools.name !== "insert") return [];
    const { pixelX, pixelY } = tools.placeOf(event);
    const found = bench.overlay.objectAt(pixelX, pixelY, bench.layerId);
    if (found && !bench.objectIds.includes(found.object.id)) bench.chooseObject(found.object.id);
    return found ? this.chosenItems() : this.clipItems().filter(({ text }) => text === "Paste");
  }
}
