// SPDX-License-Identifier: MIT OR Apache-2.0
// What a line has done, in words for those who draw: `Stamp on Ground: 12 cells`. It words the line, which has what no step has: new
// names, sizes, modes, and how many cells it names.
import { wordOf } from "./line_kinds.js";
import { jsonIn, wayOf } from "./step_ways.js";

// How many cells a line names that it stamps or empties; 0 of any other. (It may be spelled wrong.)
export function cellsIn(line) {
  const kind = wordOf(line);
  if (kind !== "erase" && kind !== "stamp") return 0;
  const [, , , , width, last = ""] = line.split(" ");
  return kind === "erase" ? width * last : last.split(",").filter(value => value !== "0").length;
}

const counted = (count, one) => `${count.toLocaleString("en")} ${count === 1 ? one : `${one}s`}`;
const rest = (words, from) => words.slice(from).join(" ");

export class LogWords {
  // `names` gives what a layer or an object is called: { layer(id), object(id) }.
  constructor(names) {
    this.names = names;
  }

  // `cells` are those of the line, or of its whole step, and `gesture` is what the hand did, or null. "" where a line only looks.
  of(line, cells, gesture) {
    const words = line.split(" ");
    return (OF_GESTURES[gesture] ?? OF_WORDS[wordOf(line)])?.(words, this.names, cells) ?? "";
  }
}

// What the hand did, where the line says less.
const OF_GESTURES = {
  rectangle: ([, layer], names, cells) => `Rectangle on ${names.layer(layer)}: ${counted(cells, "cell")}`,
  pattern: ([, layer], names, cells) => `Fill on ${names.layer(layer)}: ${counted(cells, "cell")}`,
  cut: ([, layer, , , width, height], names) => `Cut from ${names.layer(layer)}: ${width} × ${height}`,
  empty: ([, layer], names) => `Empty the selected cells of ${names.layer(layer)}`,
  paste: () => "Drop the selection, to paste",
  made: ([, name]) => `New map ${name}`,
};

const OF_WORDS = {
  stamp: ([, layer], names, cells) => `Stamp on ${names.layer(layer)}: ${counted(cells, "cell")}`,
  erase: ([, layer], names, cells) => `Erase on ${names.layer(layer)}: ${counted(cells, "cell")}`,
  fill: ([, layer, x, y], names) => `Fill on ${names.layer(layer)} from ${x}, ${y}`,
  select: ([, kind, , , width, height]) => OF_SELECT[kind]?.(`${width} × ${height} cells`) ?? "",
  new: ([, name, width, height]) => `New map ${name}: ${width} × ${height}`,
  open: ([, , file]) => `Open ${file}`,
  save: ([, file]) => `Save ${file}`,
  close: ([, name]) => `Close ${name}`,
  discard: ([, name]) => `Close ${name} without its changes`,
  use: ([, name]) => `Show ${name}`,
  undo: () => "Undo",
  redo: () => "Redo",
  goto: ([, step]) => `Go to step ${step}`,
  begin: words => `Begin macro ${rest(words, 1).split(" || ")[0]}`,
  end: () => "End macro",
  dirty: () => "Not saved",
  clear: () => "Forget the steps",
  resize: ([, width, height]) => `Resize the map to ${width} × ${height}`,
  extend: ([, ...counts]) => `Add room to the map: ${counts.map(atSide).filter(Boolean).join(", ") || "none"}`,
  layer: (words, names) => ofLayer(words, names),
  object: (words, names) => ofObject(words, names),
  prop: (words, names) => ofNamed(words, names),
  member: (words, names) => ofNamed(words, names),
  tileset: words => ofTileset(words),
};

const OF_SELECT = {
  none: () => "Select nothing",
  replace: cells => `Select ${cells}`,
  add: cells => `Add ${cells} to the selection`,
  subtract: cells => `Take ${cells} from the selection`,
  intersect: cells => `Keep the selection within ${cells}`,
};

const SIDES = ["left", "top", "right", "bottom"];
const atSide = (count, at) => (count === "0" ? "" : `${count} ${SIDES[at]}`);

const REMOVALS = new Set(["remove", "take"]);
const capitalised = word => `${word.charAt(0).toUpperCase()}${word.slice(1).replace(/\+$/, "")}`;

function ofLayer(words, names) {
  const [, what, id, value] = words;
  if (what === "add") return `Add ${id} layer ${rest(words, 3)}`;
  if (what === "into") return `Move layer ${names.layer(id)} ${value === "0" ? "out of all groups" : `into ${names.layer(value)}`}`;
  if (wordOf(what) === "show") return `${value === "no" ? "Hide" : "Show"} layer ${names.layer(id)}`;
  return wordOf(what) === "rename" ? `Rename layer ${names.layer(id)} to ${rest(words, 3)}` : `${capitalised(what)} layer ${names.layer(id)}`;
}

// What is added as a file has it, by its name. Of a line that is shortened that is not known.
const added = (kind, said) => `Add ${kind} ${said ? said.source || said.name || "without a name" : ".."}`;

function ofObject(words, names) {
  const [, what, id, layer] = words;
  if (what === "put") return added("object", jsonIn(rest(words, 3)));
  if (what === "into") return `Move ${names.object(id)} into ${names.layer(layer)}`;
  return what.startsWith("add") ? `Add object ${rest(words, 7)}` : `${capitalised(what)} ${names.object(id)}`;
}

function ofTileset(words) {
  const [, what] = words;
  if (what === "put") return added("tileset", jsonIn(rest(words, 2)));
  if (what === "number") return `Renumber tileset ${words[2]} to ${words[3]}`;
  return what === "remove" ? `Remove tileset ${rest(words, 2)}` : `Add tileset ${rest(words, 3)}`;
}

function ownerIn(owner, names) {
  const [kind, id] = owner.split(":");
  return kind === "map" ? "the map" : names[kind]?.(id) ?? owner;
}

const TURNS = { locked: "Lock", unlocked: "Unlock", shown: "Show", hidden: "Hide" };

// Of a property, and of own members.
function ofNamed(words, names) {
  const [kind, what, owner] = words;
  const way = wayOf(words.join(" "), null) ?? "..";
  if (kind === "member" && Object.hasOwn(TURNS, way)) return `${TURNS[way]} ${ownerIn(owner, names)}`;
  return `${REMOVALS.has(what) ? "Remove" : "Set"} ${way} of ${ownerIn(owner, names)}`;
}
