// SPDX-License-Identifier: MIT OR Apache-2.0
// The way in which a line makes its step, in words that stand behind what the step is about. They are read from the line, since no step
// has them: what the hand did, the mode and the size of a selection, whether a layer is shown, and the names of properties and members.
import { wordOf } from "./line_kinds.js";

// What a JSON text says; null where it is none, as in a line that is shortened or refused.
export function jsonIn(text) {
  try {
    return JSON.parse(text);
  } catch {
    return null;
  }
}

const GESTURES = { rectangle: "rectangle", pattern: "pattern", cut: "cut", empty: "the selected cells", paste: "none, to paste" };
const SIGNS = { replace: "", add: "+ ", subtract: "− ", intersect: "within " };

const WAYS = {
  select: ([, how, , , width, height]) => (how === "none" ? how : `${SIGNS[how] ?? ""}${width} × ${height}`),
  layer: ([, what, , isShown]) => (wordOf(what) === "show" ? (isShown === "no" ? "hidden" : "shown") : null),
  prop: ([, what, , name, ...rest]) => (what in NAMES ? NAMES[what](jsonIn([name, ...rest].join(" "))) : name),
  member: ([, what, , name, ...rest]) => (wordOf(what) === "put" ? namesIn([name, ...rest].join(" ")) : turned(name, rest[0]) ?? called(name)),
};

// What own members are called by those who draw, where files call them otherwise.
const CALLED = {
  type: "class", gid: "tile", tintcolor: "tint", offsetx: "offset x", offsety: "offset y", parallaxx: "parallax x", parallaxy: "parallax y",
  repeatx: "repeat x", repeaty: "repeat y",
};
const called = name => CALLED[name] ?? name;

// What is turned on and off, by its member and its value; a member that is taken out is off.
const TURNED = { locked: ["locked", "unlocked"], visible: ["shown", "hidden"] };
const turned = (name, value) => (Object.hasOwn(TURNED, name) ? TURNED[name][value === "true" ? 0 : 1] : null);

// The steps of what is turned on and off, and what is done with other own members: the editor's own texts tell no more than that some were set.
const TURNS = { locked: "Lock Layer", unlocked: "Unlock Layer", shown: "Show Object", hidden: "Hide Object" };
const DONE = { "Set Member": "Set", "Set Members": "Set", "Remove Member": "Reset" };
const capitals = words => words.replace(/(^| )[a-z]/g, letter => letter.toUpperCase());

// What a step is called by those who draw, by the editor's text and the way in which it was made: { text, way }, where the way is still to be
// told, or null.
export function calledStep(text, way) {
  if (!way || !Object.hasOwn(DONE, text)) return { text, way };
  return { text: TURNS[way] ?? `${DONE[text]} ${capitals(way)}`, way: null };
}
const shownName = name => (name === "" ? "(no name)" : name ?? null);
// The property that a line names, or says, as JSON.
const NAMES = { take: shownName, put: said => shownName(said?.name) };
const namesIn = text => jsonIn(text) && Object.keys(jsonIn(text)).map(called).join(", ");

// The way of a line by which the hand may have done something more; null where there is none.
export function wayOf(line, gesture) {
  return GESTURES[gesture] ?? WAYS[wordOf(line)]?.(line.split(" ")) ?? null;
}
