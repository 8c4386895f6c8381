// SPDX-License-Identifier: MIT OR Apache-2.0
// The tools that fill: joined cells that are alike, or a rectangle.
import { drawBlock, joinedCells, patternFrom, patternOver } from "./patterns.js";
import { BARS } from "./stroke_tool.js";

// A stamp of one tile fills by the line `fill`. One of more is a pattern over the cells that this line would take.
export class FillTool {
  constructor(bench, colour) {
    Object.assign(this, { bench, colour, region: null });
    // Behind lines other cells are joined.
    bench.editor.addEventListener("done", () => (this.region = null));
  }

  // The cells that a press fills are shown with the tiles that they get.
  hover(place) {
    const { colour } = this;
    const region = this.regionAt(...place.cell);
    if (!region) return { cells: [...place.cell, 1, 1], colour };
    const { x, y, width, height, isIn, count } = region;
    return { cells: [x, y, width, height], isIn, valueAt: patternFrom(this.stamp, [x, y]), colour, words: count === 1 ? "1 cell" : `${count} cells` };
  }

  // A stamp of one tile fills with its first tile, whichever of its cells has that.
  get stamp() {
    const { stamp, fillValue } = this.bench;
    return stamp.values.length === 1 ? { width: 1, height: 1, values: [fillValue] } : stamp;
  }

  // The cells that are joined to one, which are looked for anew only where others are; null where there are none.
  regionAt(x, y) {
    const { layer, layerId, map } = this.bench;
    const known = this.region;
    if (known?.map === map && known.layerId === layerId && known.isIn(x, y)) return known;
    const found = layer?.isTiles ? joinedCells(map, layerId, x, y) : null;
    return (this.region = found && { ...found, map, layerId });
  }

  down(place) {
    const { bench } = this;
    const { layerId, map, stamp } = bench;
    if (!map.isInside(...place.cell) || stamp.values.length === 1) return this.fill(place.cell);
    const cells = joinedCells(map, layerId, ...place.cell);
    return cells ? drawBlock(bench, patternOver(stamp, layerId, cells), "pattern") : bench.say(BARS.selection);
  }

  // The editor says in its own words why it refuses a fill.
  fill([x, y]) {
    const { bench } = this;
    if (!bench.map.isInside(x, y) && bench.growth.grows) return bench.say("A fill ends where the map does: the brush makes it larger.");
    if (bench.map.isInside(x, y) && !bench.map.isReached(x, y)) return bench.say(BARS.selection);
    return bench.act([`fill ${bench.layerId} ${x} ${y} ${bench.fillValue}`]);
  }

  move() {}

  up() {}
}

// Fills a rectangle with the stamp, repeated from its upper left corner on.
export function fillRectangle(bench, cells) {
  const { moved, why } = bench.growth.reach(cells);
  if (why) return bench.say(why);
  const [[x, y, width, height], { layerId, map, stamp }] = [[cells[0] + moved[0], cells[1] + moved[1], cells[2], cells[3]], bench];
  const [left, top, wide, high] = map.cut(x, y, width, height);
  if (!wide || !high) return bench.say(BARS.outside);
  const block = patternOver(stamp, layerId, { x: left, y: top, width: wide, height: high }, [x, y]);
  const bar = map.barOf(block);
  const done = bar ? bench.say(BARS[bar]) : drawBlock(bench, block, "rectangle");
  bench.growth.end();
  return done;
}
