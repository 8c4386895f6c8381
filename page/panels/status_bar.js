// SPDX-License-Identifier: MIT OR Apache-2.0
// The bar below the map: how the steps stand, and what is under the hand.
import { byId, putText } from "./dom.js";
import { wordsOf } from "../core/tile_words.js";

// What is said of a map that has no file.
export const NEVER_SAVED = "not saved yet";

export class StatusBar {
  constructor(bench, tilesets) {
    Object.assign(this, { bench, tilesets });
    bench.addEventListener("hand", () => this.showHand());
  }

  showState({ active, file, index, count, isClean, isWriting, depth }) {
    const saved = isWriting ? "is being saved" : file === null ? NEVER_SAVED : isClean ? "saved" : "not saved";
    // A macro that is open stands behind the steps that are done, and none is undone then.
    const undone = depth ? 0 : count - index;
    const steps = undone ? [`${undone} ${undone === 1 ? "step" : "steps"} undone`] : [];
    const macros = depth ? [depth === 1 ? "a macro is open" : `${depth} macros are open`] : [];
    putText(byId("standing"), active ? [...steps, ...macros, saved].join(", ") : "");
  }

  // What of the map is not drawn, or otherwise than in Tiled.
  showNotDrawn(words) {
    byId("undrawn-features").textContent = words.length ? `Not drawn: ${words.join(", ")}` : "";
    byId("undrawn-features").title = byId("undrawn-features").textContent;
  }

  // The cell, the pixel of the map, the layer and its tile.
  showHand() {
    const { layer, map, place } = this.bench;
    putText(byId("place"), place && map ? this.words(map, layer, place).join(" · ") : "");
  }

  words(map, layer, { cell, pixelX, pixelY }) {
    const words = [cell.join(", "), `${Math.floor(pixelX)}, ${Math.floor(pixelY)} px`];
    if (layer) words.push(layer.data.name || "(no name)");
    if (layer?.isTiles && map.isInside(...cell)) words.push(wordsOf(map.value(layer.id, ...cell), this.tilesets));
    return words;
  }
}
