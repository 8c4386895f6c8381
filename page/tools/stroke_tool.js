// SPDX-License-Identifier: MIT OR Apache-2.0
// The brush and the eraser.
import { Stroke, cellsOnLine } from "./stroke.js";

// How many cells of blocks a line may have that is shown with what it would leave; of one that has more only its way is shown.
const MOST_SHOWN = 200_000;
// What is said where a block can change no cell.
export const BARS = {
  outside: "This is outside the map.",
  selection: "The selection keeps these cells as they are. Ctrl+Shift+A drops it.",
};

// What is shown of a line along cells: what the blocks at them leave, a later one over those before it.
function lineShown(line, blockAt) {
  const first = blockAt(line[0]);
  const isLong = line.length * first.width * first.height > MOST_SHOWN;
  const blocks = isLong ? line.map(([x, y]) => ({ x, y, width: 1, height: 1 })) : line.map(blockAt);
  const left = new Map();
  for (const { x, y, width, height, values } of blocks) {
    for (let at = 0; at < width * height; at++) {
      const key = `${x + at % width} ${y + Math.floor(at / width)}`;
      if (!values || values[at]) left.set(key, values?.[at] ?? 0);
    }
  }
  const [across, down] = [blocks.map(block => block.x), blocks.map(block => block.y)];
  const [x, y] = [Math.min(...across), Math.min(...down)];
  const { width, height } = blocks[0];
  const cells = [x, y, Math.max(...across) + width - x, Math.max(...down) + height - y];
  const valueAt = first.values && !isLong ? (column, row) => left.get(`${column} ${row}`) ?? 0 : undefined;
  return { cells, isIn: (column, row) => left.has(`${column} ${row}`), valueAt, words: `${line.length} cells long` };
}

export class StrokeTool {
  constructor(bench, name, colour) {
    Object.assign(this, { bench, name, colour, stroke: null, last: null });
    // Behind a line that is not of the stroke, what comes of the stroke is a step of its own.
    bench.editor.addEventListener("map", () => this.moveLast(bench.editor.shift));
    bench.editor.addEventListener("done", ({ detail }) => this.stroke && detail !== this.stroke && this.stroke.begin(bench.map));
  }

  // All in the map has moved.
  moveLast([right, down]) {
    if (this.start) this.last.cell = [this.last.cell[0] + right, this.last.cell[1] + down];
  }

  // The block that the hand leaves at a cell.
  blockAt(x, y) {
    const { stamp, brushSize, layerId } = this.bench;
    const isPattern = this.name === "brush" && stamp.values.length > 1;
    const [width, height] = isPattern ? [stamp.width, stamp.height] : [brushSize, brushSize];
    const block = { layer: layerId, x: x - Math.floor(width / 2), y: y - Math.floor(height / 2), width, height };
    if (this.name === "brush") block.values = isPattern ? stamp.values : new Array(width * height).fill(stamp.values[0]);
    return block;
  }

  // The cell from which Shift draws a line: the last one of the stroke before, in the same document.
  get start() {
    return this.last?.document === this.bench.editor.openDocuments.active ? this.last.cell : null;
  }

  // Whether a paste is in the hand that was not put down yet: its size is told.
  get isPasted() {
    const { bench } = this;
    return this.name === "brush" && bench.pasted !== null && bench.pasted === bench.stamp;
  }

  hover(place, event) {
    const { colour, stroke } = this;
    if (event?.shiftKey && this.start && !stroke) return { ...lineShown(cellsOnLine(this.start, place.cell), cell => this.blockAt(...cell)), colour, grows: this.bench.growth.grows };
    const { x, y, width, height, values } = this.blockAt(...place.cell);
    const valueAt = values && ((column, row) => values[(row - y) * width + column - x]);
    return { cells: [x, y, width, height], valueAt, colour, grows: this.bench.growth.grows, words: this.isPasted && `${width} × ${height}` };
  }

  down(place, event) {
    const { bench } = this;
    const from = event.shiftKey ? this.start : null;
    this.document = bench.editor.openDocuments.active;
    this.isBarred = true;
    this.stroke = new Stroke(bench.map, (x, y) => this.blockAt(x, y), line => this.runLine(line), from);
    this.draw(place, event);
  }

  move(place, event) {
    if (this.stroke) this.draw(place, event);
  }

  up() {
    if (this.stroke?.last) this.last = { document: this.document, cell: this.stroke.last };
    this.stroke = null;
    this.bench.pasted = null;
    this.bench.growth.end();
  }

  // Takes the stroke back: what was there before it stays.
  cancel() {
    const { stroke, bench } = this;
    this.stroke = null;
    if (bench.growth.end(true)) return;
    if (stroke?.hasStep && bench.editor.openDocuments.active === this.document) bench.macros.undo();
  }

  // Does a line of the stroke, and gives what is told of it. Behind one that is refused the stroke is over.
  runLine(line) {
    return this.bench.sayRefusal(this.bench.editor.doLines([line], { stroke: this.stroke })).told ?? null;
  }

  draw(place, event) {
    const { editor, view } = this.bench;
    if (editor.openDocuments.active !== this.document) return;
    const cell = this.grownTo(place.cell);
    if (!cell) return;
    const edits = this.stroke.moveTo(...cell);
    if (this.isBarred) this.sayBar(cell);
    if (!edits.length) return;
    this.isBarred = false;
    view.redrawCells(edits);
    view.measure("stroke", event.timeStamp);
    view.measure("stroke work", view.work);
  }

  // A cell of the map, which grows where it is infinite and the brush has left it. null where it cannot, which is said.
  grownTo(cell) {
    if (this.name !== "brush" || this.stroke.isOver) return cell;
    const { bench, stroke } = this;
    const { moved, why } = bench.growth.reach(stroke.boxTo(...cell), stroke);
    if (why) return bench.say(why);
    if (stroke.map !== bench.map) stroke.follow(bench.map, moved);
    return [cell[0] + moved[0], cell[1] + moved[1]];
  }

  // Says why nothing is drawn, as long as that is so from the beginning of the stroke on.
  sayBar(cell) {
    const bar = this.stroke.isOver ? "" : this.bench.map.barOf(this.blockAt(...cell));
    this.isBarred = bar !== "";
    if (bar) this.bench.say(BARS[bar]);
  }
}
