// SPDX-License-Identifier: MIT OR Apache-2.0
// How wide words are in the font of the page, which nothing is laid out for.

const pen = new OffscreenCanvas(1, 1).getContext("2d");
const known = new Map();
// How many words are known at most.
const MOST = 10_000;

// In pixels of the page.
export function widthOf(words) {
  if (words === "") return 0;
  if (!known.has(words)) {
    if (known.size >= MOST) known.clear();
    pen.font = getComputedStyle(document.body).font;
    known.set(words, pen.measureText(words).width);
  }
  return known.get(words);
}
