// SPDX-License-Identifier: MIT OR Apache-2.0
// The layers as a tree: the one that is drawn last stands on top, and a group above the layers in it.
import { NO_MAP, allow, button, byId, element } from "./dom.js";
import { iconButton, showIcon } from "./icons.js";
import { KINDS } from "../core/kinds.js";
import { isLocked, lockLine, lockedGroupOf } from "../tools/barred_layers.js";
import { LayerActs } from "./layer_acts.js";
import { INDENT, LayerDrag } from "./layer_drag.js";
import { putRows } from "./list_rows.js";
import { memberLine, renameLine } from "../core/member_lines.js";
import { NO_PICTURE } from "./picture_choice.js";
import { pathFrom } from "../files/names.js";
import { saidOf } from "../core/refusals.js";
import { RowField } from "./row_field.js";
import { whyNotNamed } from "../core/unsupported_edits.js";
import { MAX_LAYERS } from "../../js/limits.js";

const LAYER_KINDS = { tilelayer: "tiles", objectgroup: "objects", imagelayer: "image", group: "group" };
// The kinds of layers that are added, in the order of Tiled's menu: their type, the words for each, and the name that is proposed.
const ADDED = {
  tile: { type: "tilelayer", words: "a tile layer", proposed: "Tile Layer" },
  object: { type: "objectgroup", words: "an object layer", proposed: "Object Layer" },
  image: { type: "imagelayer", words: "an image layer", proposed: "Image Layer" },
  group: { type: "group", words: "a group layer", proposed: "Group" },
};

export class LayerPanel {
  constructor(bench) {
    this.bench = bench;
    this.list = byId("layers");
    // The rows by the ids of their layers, and the ids of the groups whose layers are not listed.
    this.rows = new Map();
    this.folded = new Set();
    // The row of a layer that is to be added, with its field; null where there is none.
    this.draft = null;
    // Asks for the picture of an image layer: the page sets it.
    this.askPicture = async () => NO_PICTURE;
    this.list.onclick = event => this.click(event);
    this.list.ondblclick = event => this.rowOf(event) && !event.target.closest("button, input") && this.rename();
    this.drag = new LayerDrag(this);
    this.acts = new LayerActs(bench, kind => this.proposedName(kind));
    // Where the panel gets another height, the current layer stays in sight.
    new ResizeObserver(() => this.list.querySelector(".now")?.scrollIntoView({ block: "nearest" })).observe(this.list);
    byId("layer-actions").append(
      ...Object.entries(ADDED).map(([kind, { words }]) => (
        iconButton(`${kind}Layer`, `Add ${words}`, `Add ${words}, above the current one`, () => this.add(kind), { id: `add-${kind}-layer` })
      )),
      iconButton("up", "Raise this layer", "", () => this.move(1), { id: "layer-up" }),
      iconButton("down", "Lower this layer", "", () => this.move(-1), { id: "layer-down" }),
      iconButton("rename", "Rename this layer", "Rename this layer: a double click", () => this.rename(), { id: "rename-layer" }),
      iconButton("remove", "Remove this layer", "Remove this layer, with all that is in it", () => this.remove(), { id: "remove-layer" }),
    );
  }

  // ---- what is shown
  // Rows stay where they are: a double click is two clicks at one row.
  show() {
    const { map, layerId } = this.bench;
    if (this.draft && this.draft.document !== this.bench.document) this.draft.field.end();
    // The layers of a model stay as they are.
    if (this.shownMap === map && this.shown === layerId) return;
    this.shownMap = map;
    const layers = map?.layers ?? [];
    if (this.shown !== layerId) this.unfoldChosen();
    this.listed = this.inOrder(layers, null);
    putRows(this.list, this.allRows());
    for (const id of this.rows.keys()) if (!layers.some(layer => layer.id === id)) this.rows.delete(id);
    this.showMoves();
    // Once all that stands around the list has its size.
    if (this.shown !== layerId) requestAnimationFrame(() => this.list.querySelector(".now")?.scrollIntoView({ block: "nearest" }));
    this.shown = layerId;
  }

  // Shows all anew.
  renew() {
    this.shownMap = null;
    this.show();
  }

  // The rows of the layers, and that of a layer to be added.
  allRows() {
    const rows = this.listed.map(layer => this.row(layer));
    if (!this.draft) return rows;
    const at = this.listed.indexOf(outermost(this.bench.layer));
    return rows.toSpliced(Math.max(0, at), 0, this.draft.row);
  }

  // Where the layer is the highest one of its group, or the lowest, it goes no farther.
  showMoves() {
    this.showMove("layer-up", 1, "Raise this layer above the next one", "highest");
    this.showMove("layer-down", -1, "Lower this layer below the next one", "lowest");
    for (const [kind, { words }] of Object.entries(ADDED)) allow(byId(`add-${kind}-layer`), `Add ${words}, above the current one`, this.bench.map ? "" : NO_MAP);
    allow(byId("rename-layer"), "Rename this layer: a double click", this.whyNoLayer);
    allow(byId("remove-layer"), "Remove this layer, with all that is in it", this.whyNoLayer);
  }

  get whyNoLayer() {
    if (!this.bench.map) return NO_MAP;
    return this.bench.layer ? "" : "Add a layer first";
  }

  showMove(id, by, words, last) {
    const { layer } = this.bench;
    allow(byId(id), words, this.whyNoLayer || (this.canMove(by) ? "" : `It is the ${last} layer${layer.group ? " of its group" : ""} already`));
  }

  // The layers of one group as they are listed, with those in them.
  inOrder(layers, group) {
    const inside = layers.filter(layer => layer.group === group).reverse();
    return inside.flatMap(layer => [layer, ...(layer.type === "group" && !this.folded.has(layer.id) ? this.inOrder(layers, layer) : [])]);
  }

  unfoldChosen() {
    for (let group = this.bench.layer?.group; group; group = group.group) this.folded.delete(group.id);
  }

  row(layer) {
    if (!this.rows.has(layer.id)) this.rows.set(layer.id, this.newRow(layer.id));
    const row = this.rows.get(layer.id);
    const [fold, eye, lock, name, kind] = row.children;
    const [isShown, isFolded] = [layer.data.visible !== false, this.folded.has(layer.id)];
    fold.textContent = layer.type !== "group" ? "" : isFolded ? "▸" : "▾";
    fold.title = layer.type !== "group" ? "" : isFolded ? "Show the layers in it" : "Fold this group";
    showIcon(eye, isShown ? "seen" : "hidden");
    eye.title = isShown ? "Hide this layer" : "Show this layer";
    eye.setAttribute("aria-label", `${isShown ? "Hide" : "Show"} ${layer.data.name}`);
    this.showLock(lock, layer);
    name.textContent = layer.data.name || "(no name)";
    name.title = layer.data.name;
    kind.textContent = LAYER_KINDS[layer.type] ?? layer.type;
    row.style.paddingLeft = `${2 + layer.depth * INDENT}px`;
    row.classList.toggle("now", layer.id === this.bench.layerId);
    row.classList.toggle("hidden", !layer.isSeen);
    return row;
  }

  // A layer in a locked group shows that lock, too.
  showLock(lock, layer) {
    const [isOn, group] = [isLocked(layer), lockedGroupOf(layer)];
    showIcon(lock, isOn || group ? "locked" : "unlocked");
    if (!group) lock.title = isOn ? "Unlock this layer" : "Lock this layer, so that nothing is drawn on it";
    else lock.title = isOn ? `Unlock this layer. The group ${group.data.name} stays locked` : `The group ${group.data.name} is locked. Lock this layer, too`;
    lock.setAttribute("aria-label", `${isOn ? "Unlock" : "Lock"} ${layer.data.name}`);
    lock.classList.toggle("on", isOn);
    lock.classList.toggle("by-group", Boolean(group));
  }

  newRow(id) {
    return element("li", { data: { layer: id } },
      button("", "", null, { className: "fold" }),
      button("", "", null, { className: "eye" }),
      button("", "", null, { className: "lock" }),
      element("span", { className: "name" }),
      element("span", { className: "kind" }));
  }

  // ---- the hand
  // The row of an event.
  rowOf(event) {
    return event.target.closest("#layers li");
  }

  click(event) {
    const row = this.rowOf(event);
    const layer = row && this.bench.map?.layer(Number(row.dataset.layer));
    if (!layer) return;
    if (event.target.className === "eye") this.bench.act([`layer show ${layer.id} ${layer.data.visible !== false ? "no" : "yes"}`]);
    else if (event.target.classList.contains("lock")) this.bench.act([lockLine(layer, !isLocked(layer))]);
    else if (event.target.className === "fold" && layer.type === "group") this.fold(layer.id);
    else this.bench.chooseLayer(layer.id);
  }

  fold(id) {
    if (!this.folded.delete(id)) this.folded.add(id);
    this.renew();
    this.bench.tell("layout");
  }

  // ---- names
  // Shows a field in a row, in the place of its name.
  nameIn(row, field) {
    row.classList.add("naming");
    row.append(field.input);
    field.begin();
    row.scrollIntoView({ block: "nearest" });
  }

  // Does lines at once for a field, and gives "", or why one was refused.
  doNow(lines, text) {
    const { bench } = this;
    const done = text ? bench.doAsOne(text, lines) : bench.editor.doLines(lines);
    bench.bubble.hide();
    return done.isAccepted ? "" : saidOf(done);
  }

  rename() {
    const { layer } = this.bench;
    if (!layer) return;
    const why = whyNotNamed(layer.data.name);
    if (why) return void this.bench.say(`This name is not changed here. ${why}`);
    this.unfoldChosen();
    this.renew();
    const row = this.rows.get(layer.id);
    if (row.classList.contains("naming")) return;
    const before = layer.data.name;
    const take = name => (name === before ? "" : this.doNow([renameLine(layer, name)]));
    const field = new RowField(before, KINDS.label, take, () => {
      row.classList.remove("naming");
      for (const each of row.querySelectorAll(".row-field, .fault")) each.remove();
    });
    this.nameIn(row, field);
  }

  // A new layer is named in a row of its own, and added with that name. Escape adds none.
  async add(kind) {
    const { bench } = this;
    const { document } = bench;
    const picture = kind === "image" && bench.map && !this.draft ? await this.askPicture() : NO_PICTURE;
    if (!picture || !bench.map || this.draft || document !== bench.document) return;
    const proposed = this.proposedName(kind);
    const row = element("li", { className: "new" }, element("span", { className: "kind", textContent: LAYER_KINDS[ADDED[kind].type] }));
    const take = name => this.addNow(kind, name || proposed, picture);
    const field = new RowField(proposed, KINDS.label, take, () => {
      this.draft = null;
      this.renew();
    });
    this.draft = { row, field, document };
    this.renew();
    this.nameIn(row, field);
  }

  // As Tiled names them: by the number of layers of this kind.
  proposedName(kind) {
    const { layers } = this.bench.map;
    const { type, proposed } = ADDED[kind];
    const names = new Set(layers.map(layer => layer.data.name));
    let number = layers.filter(layer => layer.type === type).length + 1;
    while (names.has(`${proposed} ${number}`)) number++;
    return `${proposed} ${number}`;
  }

  // Adds a layer above the one in hand, or above the group in which that stands, as one step, with a picture where it has one. Gives "", or why
  // that is refused.
  addNow(kind, name, picture) {
    const { map } = this.bench;
    if (map.layers.length >= MAX_LAYERS) return `A map has at most ${MAX_LAYERS} layers.`;
    const [id, below] = [map.data.nextlayerid, outermost(this.bench.layer)];
    const isOnTop = !below || below.place === below.siblings - 1;
    const way = isOnTop ? [] : [`layer move ${id} ${below.place + 1}`];
    const image = picture === NO_PICTURE ? [] : [memberLine(`layer:${id}`, "image", pathFrom(this.bench.editor.folder, picture.path))];
    const lines = [`layer add ${kind} ${name}`, ...way, ...image];
    const why = this.doNow(lines, lines.length === 1 ? null : "Add Layer || add layer");
    if (!why) this.bench.chooseLayer(id);
    return why;
  }

  // Behind it the layer below is the current one, or else the one above, or the group that had it.
  async remove() {
    const { bench } = this;
    const { layer, map } = bench;
    if (!layer) return;
    const beside = by => map.layers.find(each => each.group === layer.group && each.place === layer.place + by);
    const next = beside(-1) ?? beside(1) ?? layer.group;
    const done = await bench.act([`layer remove ${layer.id}`]);
    if (!done.isAccepted || !next) return;
    bench.layerId = next.id;
    bench.settle();
  }

  // Among the layers of its group.
  move(by) {
    const { layer } = this.bench;
    if (layer && this.canMove(by)) this.bench.act([`layer move ${layer.id} ${layer.place + by}`]);
  }

  canMove(by) {
    const { layer } = this.bench;
    return Boolean(layer) && layer.place + by >= 0 && layer.place + by < layer.siblings;
  }

  // Chooses the layer in the row above, by -1, or below.
  step(by) {
    const { bench, listed } = this;
    let from = bench.layer;
    // Of a layer in a folded group, the row of that group.
    while (from && !listed.includes(from)) from = from.group;
    const layer = from && listed[Math.max(0, Math.min(listed.length - 1, listed.indexOf(from) + by))];
    if (layer) bench.chooseLayer(layer.id);
  }
}

// The group in no other one that a layer stands in, or the layer itself.
function outermost(layer) {
  return layer?.group ? outermost(layer.group) : layer;
}
