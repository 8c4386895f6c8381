// SPDX-License-Identifier: MIT OR Apache-2.0
// A run of arrow keys on the chosen objects: one step, up to the next line that is not of it.
const idsOf = objects => objects.map(({ id }) => id).join(" ");

// From a fraction it goes on to whole pixels.
const moved = (at, by) => (by < 0 ? Math.ceil(at) : Math.floor(at)) + by;

export class ObjectRun {
  constructor(bench) {
    // The ids of the objects of the run, and of several where they began and how far they have come: { ids, from, by }.
    Object.assign(this, { bench, run: null, isMoving: false });
    bench.editor.addEventListener("done", () => this.isMoving || (this.run = null));
  }

  move(objects, byX, byY) {
    return objects.length === 1 ? this.moveOne(objects[0], byX, byY) : this.moveAll(objects, byX, byY);
  }

  do(lines) {
    const { bench } = this;
    this.isMoving = true;
    const done = bench.sayRefusal(bench.editor.doLines(lines));
    this.isMoving = false;
    return done;
  }

  moveOne(object, byX, byY) {
    const follows = this.run?.ids === idsOf([object]);
    if (!follows) this.run = { ids: idsOf([object]) };
    const done = this.do([`object move${follows ? "+" : ""} ${object.id} ${moved(object.x ?? 0, byX)} ${moved(object.y ?? 0, byY)}`]);
    // Back where the run began its step is gone, and a line that follows would join the step before it.
    if (!done.isAccepted || done.told.became === "gone") this.run = null;
  }

  // Of several a macro is made; one that follows takes the place of that before it. In an open macro each key is an edit of its own.
  moveAll(objects, byX, byY) {
    const { editor } = this.bench;
    const follows = this.run?.ids === idsOf(objects) && !editor.stand().depth;
    const { from, by } = follows ? this.run : { from: objects.map(({ x = 0, y = 0 }) => [x, y]), by: [0, 0] };
    const [toX, toY] = [by[0] + byX, by[1] + byY];
    const lines = objects.map(({ id }, at) => `object move ${id} ${moved(from[at][0], toX)} ${moved(from[at][1], toY)}`);
    const done = this.do([...(follows ? ["undo"] : []), "begin Move Objects || move objects", ...lines, "end"]);
    this.run = done.isAccepted ? { ids: idsOf(objects), from, by: [toX, toY] } : null;
  }
}
