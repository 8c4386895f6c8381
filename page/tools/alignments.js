// SPDX-License-Identifier: MIT OR Apache-2.0
// Puts several objects into one line: at their left edges, their middles, and so on, as one step.

// How they are aligned: the sign on its button, what it does, which axis it moves them along, and which share of their length lies in line.
export const ALIGNMENTS = {
  left: ["⇤", "At their left edges", 0, 0],
  centre: ["↔", "At their middles, across", 0, 0.5],
  right: ["⇥", "At their right edges", 0, 1],
  top: ["⤒", "At their upper edges", 1, 0],
  middle: ["↕", "At their middles, up and down", 1, 0.5],
  bottom: ["⤓", "At their lower edges", 1, 1],
};

// Moves the chosen objects, but for those whose layers take no edit. The line is that of the outermost ones, or the middle of all.
export function align(bench, how) {
  const [, , axis, share] = ALIGNMENTS[how];
  const { overlay, view } = bench;
  const all = bench.chosenObjects;
  if (all.some(({ layer }) => bench.barsObjects(layer, "moved"))) return;
  const frames = all.map(({ object, layer }) => overlay.frameOf(object, layer));
  const [first, last] = [Math.min(...frames.map(frame => frame[axis])), Math.max(...frames.map(frame => frame[axis + 2]))];
  const goal = first + (last - first) * share;
  const lines = all.flatMap(({ object }, at) => {
    const [from, to] = [frames[at][axis], frames[at][axis + 2]];
    const by = (goal - (from + (to - from) * share)) / view.scale;
    const place = [object.x ?? 0, object.y ?? 0].map((length, each) => (each === axis ? Math.round(length + by) : Math.floor(length)));
    return Math.abs(by) < 0.5 ? [] : [`object move ${object.id} ${place.join(" ")}`];
  });
  if (lines.length) bench.doAsOne("Align Objects || align objects", lines);
}
