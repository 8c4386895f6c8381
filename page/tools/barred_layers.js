// SPDX-License-Identifier: MIT OR Apache-2.0
// Layers on which the hand draws only where it was told to: those that are hidden or locked, or stand in a group that is.
import { memberLine, memberRemoval } from "../core/member_lines.js";
import { endNotice, notice } from "../panels/notice_bars.js";

const ABOUT = "barred layer";

// The layer and the groups that it stands in.
function withGroups(layer) {
  return layer ? [layer, ...withGroups(layer.group)] : [];
}

// Tiled writes the member `locked` of a layer that is.
export const isLocked = layer => layer.data.locked === true;

// The line that locks a layer, or unlocks it.
export const lockLine = ({ id }, isOn) => (isOn ? memberLine(`layer:${id}`, "locked", true) : memberRemoval(`layer:${id}`, "locked"));

// Whether a layer or a group that it stands in is locked.
export const isLockedIn = layer => withGroups(layer).some(isLocked);

// The innermost group that is locked and has the layer in it; undefined where there is none.
export const lockedGroupOf = layer => withGroups(layer.group).find(isLocked);

const nameIn = (layer, each) => (each === layer ? each.data.name || "(no name)" : `The group ${each.data.name || "(no name)"}`);

// Why a layer is locked, in words; "" where it is not.
export function whyLocked(layer) {
  const locked = withGroups(layer).find(isLocked);
  return locked ? `${nameIn(layer, locked)} is locked.` : "";
}

// Why a layer is barred, in words; "" where it is not.
export function whyBarred(layer) {
  const hidden = withGroups(layer).find(each => each.data.visible === false);
  return hidden ? `${nameIn(layer, hidden)} is hidden.` : whyLocked(layer);
}

// The lines that unlock a layer, and the groups that it stands in.
export const unlockLines = layer => withGroups(layer).filter(isLocked).map(each => lockLine(each, false));

const OF_KINDS = { objectgroup: "has objects and no tiles", group: "is a group", imagelayer: "is an image" };

// Why a layer takes no tiles, and what to choose or to add first; "" where it takes them.
export function whyNoTiles(map, layer) {
  if (layer.isTiles) return "";
  const all = map.layers.filter(each => each.isTiles);
  const inGroup = all.filter(each => withGroups(each).includes(layer));
  const what = `${layer.data.name || "This layer"} ${OF_KINDS[layer.type] ?? "has no tiles"}.`;
  if (!all.length) return `${what} Add a tile layer first, by 'Add a tile layer' below the layers.`;
  if (all.length === 1) return `${what} Choose the tile layer ${all[0].data.name} to draw.`;
  return `${what} Choose a tile layer ${inGroup.length ? "in it " : ""}to draw.`;
}

export class BarredLayers {
  constructor(bench) {
    this.bench = bench;
    // The layers, by their documents and ids, on which the user draws all the same.
    this.allowed = new Set();
    bench.addEventListener("chosen", () => this.settle());
  }

  keyOf(layer) {
    return `${this.bench.editor.openDocuments.active} ${layer.id}`;
  }

  // Whether nothing is drawn on the layer in hand; says so where the hand is, and how to draw all the same.
  bars() {
    const { bench } = this;
    const { layer } = bench;
    const why = layer ? whyBarred(layer) : "";
    if (!why || this.allowed.has(this.keyOf(layer))) return false;
    bench.say(`${why} Nothing was drawn.`);
    const key = this.keyOf(layer);
    const buttons = [["Draw all the same", () => void this.allowed.add(key), `Draw on ${layer.data.name} though it is hidden or locked`]];
    const hidden = withGroups(layer).filter(each => each.data.visible === false);
    if (hidden.length) buttons.unshift(["Show it", () => bench.act(hidden.map(each => `layer show ${each.id} yes`)), "Show the layer"]);
    else buttons.unshift(["Unlock it", () => bench.act(unlockLines(layer)), "Unlock the layer"]);
    notice(ABOUT, hidden.length ? `${why} What is drawn on it would not be seen.` : `${why} So nothing is drawn on it by mistake.`, buttons, "mild");
    this.said = key;
    return true;
  }

  // Behind another layer or another look of it, what was said is over; a layer that is not barred any more has to be allowed anew later.
  settle() {
    const { layer } = this.bench;
    const key = layer ? this.keyOf(layer) : null;
    if (layer && !whyBarred(layer)) this.allowed.delete(key);
    if (this.said && (key !== this.said || !whyBarred(layer))) {
      endNotice(ABOUT);
      this.said = null;
    }
  }
}
