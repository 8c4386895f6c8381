// SPDX-License-Identifier: MIT OR Apache-2.0
// The table of keys: Tiled's, where Tiled has one. The page's keys are bound from it, and it can be listed.
import { isTyping } from "../panels/dom.js";
import { OwnKeys, isChangeable } from "./own_keys.js";
import { ARROWS, ARROW_KEYS, callsOf, keyOf, showKeys, wordOf } from "./key_tables.js";
import { flippedToSide, flippedUpDown, turnedLeft, turnedRight } from "./stamps.js";

const DIGITS = [1, 2, 3, 4, 5, 6, 7, 8, 9];
const all = prefix => DIGITS.map(digit => `${prefix}${digit}`);
// How far an arrow key moves the view where the tool has no use for it: in pixels of the page.
const STEP = 80;

// Takes the tool Insert, or where it is in hand another shape.
function turnShape(tools, by) {
  if (tools.name === "insert") tools.all.insert.turn(by);
  else tools.choose("insert");
}

// The rows of the table: [keys, what they do, a call with the digit or the direction of the key and its event].
function toolRows({ tools }) {
  const tool = (key, name, text) => [[key], text, () => tools.choose(name)];
  return [
    tool("b", "brush", "Brush: draws the stamp; Shift draws a line from the last cell"),
    tool("e", "eraser", "Eraser: empties cells"),
    tool("f", "fill", "Fill: fills joined cells with the stamp"),
    tool("p", "rectangle", "Rectangle: fills a rectangle with the stamp"),
    tool("r", "select", "Select cells; Shift adds, Ctrl subtracts, both intersect"),
    tool("s", "objects", "Objects: chooses an object, and drags it"),
    [["i"], "Insert: draws a new object; again it takes the next shape", () => turnShape(tools, 1)],
    [["Shift+i"], "Insert: takes the shape before", () => turnShape(tools, -1)],
    [["enter"], "Ends a polygon or a line", () => tools.end()],
    [["escape"], "Takes a stroke back, ends a drag, gives up a polygon, and then drops what is chosen or selected", () => tools.escape()],
  ];
}

// With an object layer in hand these go before those of the tools for tiles, as in Tiled.
function objectRows({ tools }) {
  const shape = (key, name) => [[key], `Insert: draws a new ${name}`, () => {
    tools.choose("insert");
    tools.all.insert.take(name);
  }];
  const corners = [["o"], "Objects: its handles move corners", () => tools.choose("objects")];
  return [shape("r", "rectangle"), shape("c", "ellipse"), shape("p", "polygon"), shape("t", "tile"), shape("e", "text"), corners];
}

function stampRows({ toolbar, stamps }) {
  return [
    [["x"], "Flips the stamp to the side", () => toolbar.flip(flippedToSide)],
    [["y"], "Flips the stamp upside down", () => toolbar.flip(flippedUpDown)],
    [["z"], "Turns the stamp right", () => toolbar.flip(turnedRight)],
    [["Shift+z"], "Turns the stamp left", () => toolbar.flip(turnedLeft)],
    [all(""), "Takes the stamp that is kept on the digit", digit => stamps.take(digit)],
    [all("Ctrl+"), "Keeps the stamp on the digit", digit => stamps.keep(digit)],
    [all("Shift+"), "Sets the side of brush and eraser", digit => toolbar.setBrush(digit)],
  ];
}

function editRows({ toolbar, clips }) {
  const redo = event => toolbar.turn("redo", event);
  return [
    [["Ctrl+z"], "Undoes a step; in an open macro its last edit", (_, event) => toolbar.turn("undo", event)],
    [["Ctrl+Shift+z", "Ctrl+y"], "Redoes a step, or an edit of an open macro", (_, event) => redo(event)],
    [["Ctrl+c"], "Copies the selected cells, and takes them as the stamp; or the chosen object", () => clips.copy()],
    [["Ctrl+x"], "Cuts the selected cells, or the chosen object", () => clips.cut()],
    [["Ctrl+v"], "Takes copied cells as the stamp, and drops the selection; or pastes a copied object", () => clips.paste()],
    [["Ctrl+d"], "Makes a copy of the chosen object", () => clips.duplicate()],
    [["delete", "backspace"], "Removes the chosen object, or empties the selected cells; takes back a corner of a polygon", () => clips.remove()],
    [["Ctrl+a"], "Selects all cells, or with an object layer all of its objects", () => clips.selectAll()],
    [["Ctrl+Shift+a"], "Selects no cells and no object", () => clips.selectNone()],
  ];
}

function viewRows({ toolbar, tools, view }) {
  const move = ([x, y], { shiftKey }) => tools.now.nudge?.(x, y, shiftKey) === true || view.pan(-x * STEP * view.ratio, -y * STEP * view.ratio);
  return [
    [["+", "Ctrl++", "Ctrl+="], "Larger", () => view.zoom(1)],
    [["-", "Ctrl+-"], "Smaller", () => view.zoom(-1)],
    [["Ctrl+0"], "As large as the tiles' images are", () => view.zoomTo(1)],
    [["Ctrl+/"], "The whole map", () => view.fit()],
    [["Ctrl+g"], "Hides or shows the grid", () => toolbar.turnGrid()],
    [["n"], "Hides or shows the names of objects", () => toolbar.turnNames()],
    [["m"], "Hides or shows the whole map in small", () => toolbar.turnMiniMap()],
    [ARROW_KEYS.flatMap(key => [key, `Shift+${key}`]), "Moves the chosen object or the view", move],
    [["space"], "With a drag, moves the map", () => (tools.isSpace = true)],
  ];
}

function layerRows({ layers, toolbar, bench }) {
  const rename = () => (bench.chosenLast === "objects" && bench.objectIds.length === 1 ? toolbar.renameObject() : layers.rename());
  const also = "with Ctrl, as in Tiled, only where the browser leaves that to the page";
  return [
    [["pageup", "Ctrl+pageup"], `Chooses the layer above; ${also}`, () => layers.step(-1)],
    [["pagedown", "Ctrl+pagedown"], "Chooses the layer below", () => layers.step(1)],
    [["Ctrl+Shift+arrowup"], "Raises the layer", () => layers.move(1)],
    [["Ctrl+Shift+arrowdown"], "Lowers the layer", () => layers.move(-1)],
    [["Ctrl+Shift+arrowright"], "Moves the layer into the group above it, or else into the one below", () => layers.acts.act("enter")],
    [["Ctrl+Shift+arrowleft"], "Moves the layer out of its group", () => layers.acts.act("leave")],
    [["Ctrl+Shift+d"], "Makes a copy of the layer, with all that is in it", () => layers.acts.act("duplicate")],
    [["f2"], "Renames the chosen object, or the layer", rename],
  ];
}

// Those that go in fields, too.
function mapRows({ documents }) {
  return [
    [["Ctrl+s"], "Saves the map", () => documents.save()],
    [["Ctrl+Shift+s"], "Saves the map into another file", () => documents.saveAs()],
    [["Ctrl+o"], "Opens a map", () => documents.open()],
  ];
}

function pageRows({ toolbar, panels }) {
  return [
    [["f1", "?"], "Lists the keys", () => toolbar.keys.list()],
    [["f10"], "Opens the menu", () => toolbar.openMenu()],
    [["f6", "Shift+f6"], "Goes to the next panel, or to the one before", (_, { shiftKey }) => panels.go(shiftKey ? -1 : 1)],
  ];
}

// Keys that Tiled has, and browsers do not let go of, with what does it here.
const KEPT = [
  [["Ctrl+n"], "A new window of the browser. A new map: New, in the menu"],
  [["Ctrl+w"], "Closes the page, which offers its maps again. Closes a map: Delete at its tab, or its ×"],
  [["Ctrl+t", "Ctrl+Tab", "Ctrl+Shift+Tab"], "Tabs of the browser. Another map: the list behind the tabs"],
  [["Ctrl+pageup", "Ctrl+pagedown"], "Tabs of the browser. Another layer: the same keys without Ctrl"],
  [["Ctrl+r"], "Loads the page anew, which brings all back"],
];
export const KEPT_KEYS = { title: "Keys that the browser keeps", rows: KEPT };

// These page through what has the focus, where that is a list of something else, or no map is open.
const PAGING = new Set(["pageup", "pagedown"]);
const PAGED = "#steps, #objects, #lines, #empty";
// The table, by what its rows are about.
const GROUPS = [["Tools", toolRows], ["The stamp", stampRows], ["Cells, objects and steps", editRows], ["Layers", layerRows], ["The view", viewRows], ["Maps", mapRows], ["The page", pageRows]];

export class Keys {
  // `parts` has the bench, the tools, the toolbar, the documents, the layers, the view, and the clips and kept stamps of cells.
  constructor(parts) {
    Object.assign(this, { tools: parts.tools });
    this.own = new OwnKeys();
    this.ofObjects = { title: "With an object layer, as in Tiled", rows: objectRows(parts) };
    this.objectCalls = callsOf(this.ofObjects.rows);
    this.usual = GROUPS.map(([title, rowsOf]) => ({ title, rows: rowsOf(parts) }));
    this.bind();
    // What keys do where something has the focus: groups of rows, as those of the page.
    this.places = [];
    document.addEventListener("keydown", event => this.press(event));
    document.addEventListener("keyup", event => {
      if (event.code === "Space") this.tools.isSpace = false;
    });
  }

  // Binds the keys of the table, with those of one's own. Those that have no letter go in fields, too.
  bind() {
    this.groups = this.usual.map(({ title, rows }) => ({ title, rows: this.own.of(rows) }));
    this.calls = callsOf(this.rows);
    const ofMaps = this.groups.filter(({ title }) => title === "Maps").flatMap(({ rows }) => rows.flatMap(([keys]) => keys));
    this.inFields = new Set([...[...this.calls.keys()].filter(key => /^(Shift\+)?f\d+$/.test(key) && key !== "f2"), ...ofMaps]);
  }

  press(event) {
    const word = wordOf(event);
    if (document.querySelector("dialog[open]")) {
      // The browser's own Save never opens.
      if (this.inFields.has(word)) event.preventDefault();
      return;
    }
    if (isTyping()) {
      if (this.inFields.has(word)) this.leaveField(event, word);
      return;
    }
    if (event.altKey || !this.callOf(word) || this.isText(word) || this.isForPaging(word) || this.isForFocus(word)) return;
    this.run(event, word);
  }

  get rows() {
    return this.groups.flatMap(group => group.rows);
  }

  // What a key does. One of one's own comes first, wherever it is.
  callOf(word) {
    const isOfObjects = this.tools.bench.layer?.type === "objectgroup" && !this.own.has(word);
    return (isOfObjects && this.objectCalls.get(word)) || this.calls.get(word);
  }

  // The groups of the list: those of the page, and what keys do in its places.
  get listed() {
    const [tools, ...others] = this.groups;
    return [tools, this.ofObjects, ...others, ...this.places];
  }

  // Lists the keys; a row of the page's own table may get another one.
  list() {
    const change = (text, key) => {
      this.own.give(text, key, this.rows);
      this.bind();
      return this.listed;
    };
    const reset = () => {
      this.own.forget();
      this.bind();
      return this.listed;
    };
    return showKeys(this.listed, { isOwn: text => this.rows.some(([keys, other]) => other === text && isChangeable(keys)), change, reset });
  }

  // A field takes what was typed before the map is saved.
  leaveField(event, word) {
    document.activeElement.blur();
    this.run(event, word);
  }

  // Whether the key is for what has the focus. Over the map the space bar is for the hand; elsewhere it may press a button. Enter may press one
  // where nothing is drawn corner by corner.
  isForFocus(word) {
    if (word === "enter") return !this.tools.now.isDrawing;
    return word === "space" && document.activeElement instanceof HTMLButtonElement && !this.tools.bench.place;
  }

  isForPaging(word) {
    return PAGING.has(word) && (!this.tools.bench.map || document.activeElement.closest(PAGED) !== null);
  }

  // Whether the key is for text that is marked on the page.
  isText(word) {
    return word === "Ctrl+c" && String(getSelection()) !== "";
  }

  run(event, word) {
    event.preventDefault();
    const key = keyOf(word);
    this.callOf(word)(ARROWS[key] ?? Number(key), event);
  }
}
