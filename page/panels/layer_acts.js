// SPDX-License-Identifier: MIT OR Apache-2.0
// What is done with whole layers: a copy, a merge with the layer below, a group around one, and ways into and out of groups. Each is one step.
import { NO_MAP } from "./dom.js";
import { LayerCopy, cellLines, objectLines } from "../tools/layer_copies.js";
import { besides, intoBeside, layersIn, lineTo, outOf, wholeOf, whyNotInto } from "../tools/layer_places.js";
import { whateverIsSelected } from "../tools/selection_lines.js";
import { whyBarred } from "../tools/barred_layers.js";
import { MAX_LAYERS } from "../../js/limits.js";

const NO_LAYER = "Add a layer first";
const TOO_MANY = `A map has at most ${MAX_LAYERS} layers`;
// The kinds that are merged, and what merged ones have.
const MERGED = { tilelayer: "tile layer", objectgroup: "object layer" };

const nameOf = layer => layer.data.name || "(no name)";
const withoutDot = words => words.replace(/\.$/, "");
const offsetOf = ({ offsetX, offsetY }) => `${offsetX} ${offsetY}`;

export class LayerActs {
  // `nameFor(kind)` proposes the name of a new layer.
  constructor(bench, nameFor) {
    Object.assign(this, { bench, nameFor });
  }

  // What is done, with its keys, the reason why it is not done now, or "", and a call that does it or says why not.
  items() {
    return [
      this.item("Duplicate", "Ctrl+Shift+D", "duplicate"), this.item("Merge down", "", "merge"),
      this.item("Group", "", "group"), this.item("Ungroup", "", "ungroup"),
      this.item("Into the group beside it", "Ctrl+Shift+→", "enter"), this.item("Out of its group", "Ctrl+Shift+←", "leave"),
    ];
  }

  item(text, keys, act) {
    return { text, keys, why: this.why(act), call: () => this.act(act) };
  }

  why(act) {
    if (!this.bench.map) return NO_MAP;
    return this.bench.layer ? this[`${act}Why`](this.bench.layer, this.bench.map) : NO_LAYER;
  }

  // Does what is asked for, or says why not.
  act(act) {
    const why = this.why(act);
    return why ? this.bench.say(`${why}.`) : this[act](this.bench.layer, this.bench.map);
  }

  // Does lines as one step, and chooses a layer behind it.
  doAsOne(text, lines, chosen) {
    const { bench } = this;
    if (bench.doAsOne(`${text} || ${text.toLowerCase()}`, lines).isAccepted) bench.chooseLayer(chosen);
  }

  // ---- a copy
  duplicateWhy(layer, map) {
    return map.layers.length + wholeOf(map, layer).length > MAX_LAYERS ? TOO_MANY : "";
  }

  // Puts a copy above a layer.
  duplicate(layer, map) {
    const copy = new LayerCopy(this.bench, layer, `Copy of ${nameOf(layer)}`);
    if (copy.large) return this.bench.say(`${nameOf(layer)} was not duplicated: of it, ${copy.large} is too large for a copy.`);
    const isOnTop = !layer.group && layer.place === layer.siblings - 1;
    const way = isOnTop ? [] : [lineTo({ id: copy.id, group: null }, layer.group, layer.place + 1)];
    return this.doAsOne("Duplicate Layer", whateverIsSelected(map, [...copy.lines, ...way]), copy.id);
  }

  // ---- merge
  mergeWhy(layer, map) {
    const below = besides(map, layer, -1);
    if (!below) return `It is the lowest layer${layer.group ? " of its group" : ""} already`;
    const kind = MERGED[layer.type];
    if (!kind) return "Tile layers and object layers are merged";
    if (below.type !== layer.type) return `The layer below it, ${nameOf(below)}, is no ${kind}`;
    const bar = whyBarred(layer) || whyBarred(below);
    if (bar) return withoutDot(bar);
    return offsetOf(layer) === offsetOf(below) ? "" : `${nameOf(below)} has another offset: set both alike first`;
  }

  // Puts what a layer has onto the one below, which stays as it is otherwise.
  merge(layer, map) {
    const below = besides(map, layer, -1);
    const lines = layer.isTiles ? whateverIsSelected(map, cellLines(map, layer, below.id)) : objectLines(layer, below);
    this.doAsOne("Merge Layer Down", [...lines, `layer remove ${layer.id}`], below.id);
  }

  // ---- groups
  groupWhy(layer, map) {
    if (map.layers.length >= MAX_LAYERS) return TOO_MANY;
    return withoutDot(whyNotInto(map, layer, layer.group, 1));
  }

  // Puts a group around a layer, in its place.
  group(layer, map) {
    const id = map.data.nextlayerid;
    const isOnTop = !layer.group && layer.place === layer.siblings - 1;
    const way = isOnTop ? [] : [lineTo({ id, group: null }, layer.group, layer.place + 1)];
    this.doAsOne("Group Layer", [`layer add group ${this.nameFor("group")}`, ...way, `layer into ${layer.id} ${id} 0`], layer.id);
  }

  ungroupWhy(layer) {
    return this.groupAt(layer) ? "" : "It is no group, and stands in none";
  }

  // The group that is in hand, or else that in which the layer in hand stands.
  groupAt(layer) {
    return layer.type === "group" ? layer : layer.group;
  }

  // Has the layers of a group in its place.
  ungroup(layer, map) {
    const group = this.groupAt(layer);
    const inside = layersIn(map, group);
    const lines = inside.map((each, at) => `layer into ${each.id} ${group.group?.id ?? 0} ${group.place + at}`);
    const chosen = layer === group ? inside.at(-1) ?? besides(map, group, -1) ?? besides(map, group, 1) ?? group.group : layer;
    this.doAsOne("Ungroup Layers", [...lines, `layer remove ${group.id}`], chosen?.id ?? null);
  }

  enterWhy(layer, map) {
    const way = intoBeside(map, layer);
    return way ? withoutDot(whyNotInto(map, layer, way.group)) : "No group stands beside it";
  }

  enter(layer, map) {
    const { group, place } = intoBeside(map, layer);
    this.move(layer, group, place);
  }

  leaveWhy(layer) {
    return layer.group ? "" : "It stands in no group";
  }

  leave(layer) {
    const { group, place } = outOf(layer);
    this.move(layer, group, place);
  }

  move(layer, group, place) {
    this.bench.act([lineTo(layer, group, place)]);
  }
}
