// SPDX-License-Identifier: MIT OR Apache-2.0
// The row of tools, and what its buttons do.
import { Clips, KeptStamps } from "../tools/clips.js";
import { NO_MAP, allow, byId, element, onEnter } from "./dom.js";
import { iconButton, showIcon } from "./icons.js";
import { groupSteps } from "./group_steps.js";
import { PanelKeys } from "./panel_keys.js";
import { titleOf } from "../tools/insert_tool.js";
import { Keys } from "../tools/keys.js";
import { SNAPPINGS } from "../tools/snapping.js";
import { KINDS } from "../core/kinds.js";
import { whyNotOn } from "../tools/layer_tools.js";

const TOOLS = [
  ["brush", "Brush", "B", "Draw with the stamp; the right button takes tiles from the map; Shift draws a line from the last cell"],
  ["eraser", "Eraser", "E", "Empty cells; Shift draws a line from the last cell"],
  ["fill", "Fill", "F", "Fill joined cells that are alike with the stamp"],
  ["rectangle", "Rectangle", "P", "Fill a rectangle with the stamp"],
  ["select", "Select", "R", "Select cells; Shift adds, Ctrl subtracts, both intersect"],
  ["objects", "Objects", "S", "Choose an object, and drag it; Snap says where it goes, and Ctrl turns that round"],
  ["insert", "Insert", "I", "Draw a new object; again for its next shape"],
];
// The buttons of shapes: how each is made.
const SHAPE_TITLES = {
  rectangle: "Drag for a rectangle; a click takes a cell",
  point: "Click for a point",
  ellipse: "Drag for an ellipse; a click takes a cell",
  polygon: "Click at each corner; Enter, a double click or a click at the first corner ends",
  polyline: "Click at each corner; Enter or a double click ends",
  tile: "Click for the tile in hand, as an object",
  text: "Drag for the box of a text, or click",
};
const LARGEST_BRUSH = 9;

export class Toolbar {
  constructor(bench, tools, documents, miniMap, layers) {
    Object.assign(this, { bench, tools, documents, miniMap, editor: bench.editor });
    const buttonOf = ([name, text, key, title]) => iconButton(name, text, `${text} (${key}): ${title}`, () => tools.choose(name), { id: `tool-${name}` });
    byId("tools").append(...TOOLS.map(buttonOf));
    this.addShapes();
    byId("turns").append(
      iconButton("undo", "Undo", "Undo (Ctrl+Z)", event => this.turn("undo", event), { id: "undo" }),
      iconButton("redo", "Redo", "Redo (Ctrl+Shift+Z, Ctrl+Y)", event => this.turn("redo", event), { id: "redo" }),
    );
    byId("looks").append(
      iconButton("smaller", "Smaller", "Smaller (Ctrl+-, or the wheel with Ctrl)", () => bench.view.zoom(-1), { id: "zoom-out" }),
      element("span", { id: "scale", title: "The scale of the map" }),
      iconButton("larger", "Larger", "Larger (Ctrl++, or the wheel with Ctrl)", () => bench.view.zoom(1), { id: "zoom-in" }),
      iconButton("fit", "Fit", "Fit: the whole map (Ctrl+/)", () => bench.view.fit(), { id: "fit" }),
      iconButton("grid", "Grid", "Grid: hides or shows it (Ctrl+G)", () => this.turnGrid(), { id: "grid", className: "on" }),
      iconButton("names", "Names", "Names of objects: hides or shows them (N)", () => this.turnNames(), { id: "turn-names", className: "on" }),
      iconButton("miniMap", "Mini-map", "Mini-map: hides or shows the whole map in small (M)", () => this.turnMiniMap(), { id: "turn-mini-map", className: "on" }),
    );
    byId("page-actions").append(iconButton("keys", "Keys", "Keys: lists them (F1)", () => this.keys.list(), { id: "list-keys" }));
    const clips = this.clips = new Clips(bench, tools);
    showIcon(byId("take"), "take");
    byId("take").onclick = () => bench.clipboard.during(() => clips.copyCells());
    byId("macro").onclick = () => this.turnMacro();
    byId("macro").after(iconButton("group", "Group the last steps", "", () => groupSteps(bench), { id: "group-steps" }));
    byId("macro-name").onkeydown = onEnter(() => this.turnMacro());
    const sizes = Array.from({ length: LARGEST_BRUSH }, (_, at) => element("option", { value: at + 1, textContent: `${at + 1} × ${at + 1}` }));
    byId("brush-size").append(...sizes);
    byId("brush-size").onchange = event => {
      this.setBrush(Number(event.target.value));
      event.target.blur();
    };
    bench.addEventListener("tool", () => this.show());
    // What keys do that stand in other parts: the page sets it.
    Object.assign(this, { openMenu: () => {}, renameObject: () => {} });
    const parts = { bench, tools, toolbar: this, documents, layers, view: bench.view, clips, stamps: new KeptStamps(bench, tools), panels: new PanelKeys() };
    this.keys = new Keys(parts);
  }

  // The shapes of new objects, and where the mouse puts objects.
  addShapes() {
    const insert = this.tools.all.insert;
    const buttonOf = ([shape, title]) => iconButton(`shape${titleOf(shape)}`, titleOf(shape), `${titleOf(shape)} (I, Shift+I): ${title}`, () => insert.take(shape), { id: `shape-${shape}` });
    byId("shapes").append(...Object.entries(SHAPE_TITLES).map(buttonOf));
    const options = Object.entries(SNAPPINGS).map(([value, [words]]) => element("option", { value, textContent: `Snap: ${words}` }));
    byId("snapping").append(...options);
    byId("snapping").onchange = event => {
      this.bench.snapping = event.target.value;
      event.target.blur();
      this.bench.tell("layout");
    };
  }

  showShapes() {
    const { all, name } = this.tools;
    byId("shapes").hidden = name !== "insert";
    byId("snapping-box").hidden = name !== "insert" && name !== "objects";
    for (const shape of Object.keys(SHAPE_TITLES)) {
      const button = byId(`shape-${shape}`);
      button.classList.toggle("on", shape === all.insert.shape);
      button.ariaPressed = String(shape === all.insert.shape);
    }
    byId("snapping").value = this.bench.snapping;
  }

  show() {
    const { state } = this.editor;
    this.showTools();
    this.showShapes();
    const { macros } = this.bench;
    const noMap = state.active ? "" : NO_MAP;
    const [canUndo, canRedo] = [state.depth > 0 || state.index > 0, macros.again.length > 0 || (state.depth === 0 && state.index < state.count)];
    allow(byId("undo"), `Undo${state.depth ? " the last edit of the macro" : ""} (Ctrl+Z)`, noMap || (canUndo ? "" : "Nothing is done yet"));
    allow(byId("redo"), "Redo (Ctrl+Shift+Z, Ctrl+Y)", noMap || (canRedo ? "" : "Nothing is undone"));
    allow(byId("group-steps"), "Group the last steps: they become one, with a name", macros.whyNot(1));
    allow(byId("take"), "Take the selected cells as the stamp (Ctrl+C)", noMap || (this.bench.map?.selected ? "" : "Select cells first, with the tool Select"));
    this.showMacro(state);
    byId("turn-names").classList.toggle("on", this.bench.overlay.hasNames);
    byId("grid").classList.toggle("on", this.bench.overlay.hasGrid);
    byId("brush-size").value = String(this.bench.brushSize);
  }

  // A tool that cannot act on the layer in hand is grey, and says why.
  showTools() {
    const { map, layer } = this.bench;
    for (const [name, text, key, words] of TOOLS) {
      const shown = byId(`tool-${name}`);
      const why = map ? whyNotOn(name, map, layer) : `${NO_MAP}.`;
      const title = `${text} (${key}): ${why || words}`;
      shown.classList.toggle("on", name === this.tools.name);
      shown.classList.toggle("off", why !== "");
      if (shown.title !== title) shown.title = title;
    }
  }

  // A macro that is open is told in letters.
  showMacro({ depth, active }) {
    const macro = byId("macro");
    if (depth === 0) showIcon(macro, "macro");
    else macro.textContent = `End macro${depth > 1 ? ` (${depth})` : ""}`;
    if (depth > 0) delete macro.dataset.icon;
    macro.setAttribute("aria-label", macro.textContent || "Begin macro");
    allow(macro, `${depth === 0 ? "Begin a macro" : "End the macro"}: what stands between begin and end is one step`, active ? "" : NO_MAP);
    macro.classList.toggle("on", depth > 0);
    byId("macro-name").hidden = depth > 0;
    byId("macro-name").disabled = !active;
  }

  setBrush(size) {
    const { bench } = this;
    bench.brushSize = Math.max(1, Math.min(LARGEST_BRUSH, size));
    byId("brush-size").value = String(bench.brushSize);
    this.tools.showAnew();
    const { width, height, values } = bench.stamp;
    if (this.tools.name === "brush" && values.length > 1) bench.say(`The stamp of ${width} × ${height} is drawn as it is. A size is for the eraser, and for a stamp of one tile.`);
  }

  // Does an undo or a redo, and has the browser measure how long it takes until it is seen.
  async turn(line, event) {
    const done = await this.bench.macros[line]();
    if (done.isAccepted) this.bench.view.measure(line, event.timeStamp);
  }

  turnGrid() {
    this.bench.overlay.hasGrid = !this.bench.overlay.hasGrid;
    this.bench.overlay.redraw();
    this.show();
  }

  turnNames() {
    this.bench.overlay.hasNames = !this.bench.overlay.hasNames;
    this.bench.overlay.redraw();
    this.show();
  }

  turnMiniMap() {
    this.miniMap.turn();
    byId("turn-mini-map").classList.toggle("on", this.miniMap.isWanted);
  }

  turnMacro() {
    const name = byId("macro-name");
    const isOpen = this.editor.stand().depth > 0;
    // What a step does may be named behind its name.
    const fault = isOpen ? "" : name.value.split(" || ").map(KINDS.text.fault).find(each => each) ?? "";
    if (fault) {
      name.select();
      return this.bench.say(`Give the macro a name, in the field beside its button: ${fault}.`);
    }
    name.blur();
    return this.bench.act([isOpen ? "end" : `begin ${name.value}`]);
  }

  flip(change) {
    this.bench.takeStamp(change(this.bench.stamp));
  }
}
