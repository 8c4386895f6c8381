// SPDX-License-Identifier: MIT OR Apache-2.0
// What is done by keys with selected cells, with the chosen object, and with what was copied; and the stamps that are kept on digits.

export class Clips {
  constructor(bench, tools) {
    Object.assign(this, { bench, tools, clipboard: bench.clipboard });
    // Copies that are there are shown by a tool for objects.
    tools.all.objects.copies.onPasted = () => tools.now.paste || tools.choose("objects");
  }

  // ---- keys: each is about what was chosen last, objects or cells
  // The tool that does what is about objects: null where it is about cells. Where the tool in hand is drawing corner by corner, it is about that.
  get objects() {
    const { bench, tools } = this;
    if (tools.now.isDrawing) return tools.now;
    const isAboutObjects = bench.objectIds.length > 0 ? bench.chosenLast === "objects" || !bench.map.selected : Boolean(tools.now.remove) && !this.hasCells;
    return isAboutObjects ? tools.all.objects : null;
  }

  get hasCells() {
    const { map, layer } = this.bench;
    return Boolean(map?.selected && layer?.isTiles);
  }

  // Why one of these does nothing now: nothing is chosen, or nothing was copied. "" where it may do something.
  whyNot(call) {
    const { bench, clipboard } = this;
    const isChosen = bench.objectIds.length > 0 || Boolean(bench.map?.selected);
    if (call === "paste") return clipboard.tiles || clipboard.object ? "" : "Nothing is copied";
    if (call === "duplicate") return bench.objectIds.length ? "" : "Choose an object first";
    if (call === "selectNone") return isChosen ? "" : "Nothing is selected";
    return isChosen || this.tools.now.isDrawing ? "" : "Select cells or choose an object first";
  }

  copy() {
    this.clipboard.during(() => (this.objects ? this.objects.copy() : this.copyCells()));
  }

  cut() {
    this.clipboard.during(() => (this.objects ? this.objects.cut() : this.cutCells()));
  }

  remove() {
    return this.objects ? this.objects.remove() : this.removeCells();
  }

  // With an object layer in hand its objects, unless the tool selects cells.
  selectAll() {
    const { bench, tools } = this;
    if (!bench.map) return null;
    if (bench.layer?.type === "objectgroup" && tools.name !== "select") return this.chooseAll(bench.layer);
    return bench.act([`select replace 0 0 ${bench.map.width} ${bench.map.height}`]);
  }

  // Chooses the objects of a layer that are seen.
  chooseAll(layer) {
    const { bench, tools } = this;
    if (bench.barsObjects(layer, "chosen")) return null;
    const ids = (layer.data.objects ?? []).filter(({ visible }) => visible !== false).map(({ id }) => id);
    if (!ids.length) return bench.say(`${layer.data.name || "This layer"} has no objects that are seen.`);
    if (!tools.now.paste) tools.choose("objects");
    return bench.chooseObjects(ids);
  }

  selectNone() {
    const { bench } = this;
    if (!bench.map) return null;
    if (bench.objectIds.length) bench.chooseObject(null);
    return bench.map.selected ? bench.act(["select none"]) : null;
  }

  duplicate() {
    return this.bench.objectIds.length ? this.tools.all.objects.duplicate() : this.bench.say("Choose an object first, with the tool Objects.");
  }

  // What was copied says what is pasted, whatever tool is in hand.
  paste() {
    const { bench, clipboard, tools } = this;
    if (!bench.map) return bench.say("Open a map first.");
    if (clipboard.tiles) return bench.carried.bring(clipboard.tiles, "pasted", stamp => this.takeForPaste(stamp));
    if (!clipboard.object) return bench.say("Nothing is copied. Ctrl+C copies the selected cells, or with the tool Objects the chosen object.");
    return tools.all.objects.paste();
  }

  // ---- cells
  // Takes the selected cells as the stamp, and tells whether there are any.
  take() {
    const { bench } = this;
    const stamp = bench.selectedStamp();
    if (!stamp) return false;
    bench.takeStamp(stamp);
    this.clipboard.keepTiles(bench.hand);
    return true;
  }

  copyCells() {
    if (this.take()) this.tools.choose("brush");
  }

  // Where the layer is barred, the cells are copied all the same.
  cutCells() {
    const { bench } = this;
    if (!this.take() || bench.barredLayer()) return;
    const [x, y, width, height] = bench.selectedBox;
    bench.act([`erase ${bench.layerId} ${x} ${y} ${width} ${height}`], { gesture: "cut" });
  }

  // Puts what was copied into the hand. Else the selection would bar it.
  takeForPaste(stamp) {
    const { bench } = this;
    bench.takeStamp(stamp);
    bench.pasted = stamp;
    if (bench.map.selected) bench.act(["select none"], { gesture: "paste" });
    this.tools.choose("brush");
  }

  // Empties the cells that are selected.
  removeCells() {
    const { bench } = this;
    if (!bench.map?.selected || bench.barredLayer()) return;
    bench.act([`erase ${bench.layerId} 0 0 ${bench.map.width} ${bench.map.height}`], { gesture: "empty" });
  }
}

export class KeptStamps {
  constructor(bench, tools) {
    Object.assign(this, { bench, tools, all: new Map() });
  }

  keep(digit) {
    const { bench } = this;
    if (!bench.fillValue) return bench.say("No tile is in the hand, so no stamp is kept.");
    const { width, height } = bench.stamp;
    this.all.set(digit, bench.hand);
    return bench.say(`The stamp of ${width} × ${height} is kept: the key ${digit} takes it.`);
  }

  take(digit) {
    const { bench } = this;
    const copy = this.all.get(digit);
    if (!copy) return bench.say(`No stamp is kept on ${digit}: Ctrl+${digit} keeps the one in hand. Shift+${digit} sets the side of the brush.`);
    if (!bench.map) return bench.say("Open a map first.");
    return bench.carried.bring(copy, "taken", stamp => {
      bench.takeStamp(stamp);
      this.tools.choose("brush");
    });
  }
}
