// SPDX-License-Identifier: MIT OR Apache-2.0
// Three tasks on the example world. A bar over the map tells what to do, a ring stands around where to do it, and each part is seen as done by
// what the map and the tools have.
import { button, byId, element, isTyping } from "./dom.js";
import { TASKS } from "./lesson_tasks.js";

const SIDE = 6;

export class Lesson {
  // `document` gives the name of the example's document; null where it is closed.
  constructor(page, document) {
    Object.assign(this, { page, document, task: 0, part: 0, isOn: false });
    this.head = element("strong", {});
    this.said = element("span", { role: "status", className: "said" });
    this.parts = element("ol", {});
    this.next = button("Next task", "", () => this.go(this.task + 1), { id: "lesson-next", className: "go" });
    const again = button("Begin anew", "The town as it was, and the first task", () => this.begin(), { id: "lesson-again" });
    const leave = button("Leave", "Leave the tasks (Esc)", () => this.leave(), { id: "lesson-leave" });
    this.strip = element("section", { id: "lesson", hidden: true, ariaLabel: "First tasks" },
      element("div", { className: "words" }, element("div", { className: "parts" }, this.head, this.parts), this.said),
      element("div", { className: "group" }, this.next, again, leave));
    this.ring = element("div", { id: "lesson-ring", hidden: true, ariaHidden: "true" });
    byId("bars").prepend(this.strip);
    page.bars.keepFree(() => this.target);
    window.document.body.append(this.ring);
    window.document.addEventListener("keydown", event => event.key === "Escape" && this.mayLeave() && this.leave(), true);
  }

  // The town as it was, and the first task.
  async begin() {
    const { bench, editor } = this.page;
    const { depth, index } = editor.stand();
    const lines = [...new Array(depth).fill("end"), ...(index || depth ? ["goto 0"] : [])];
    if (lines.length) await bench.act(lines);
    this.isOn = true;
    this.strip.hidden = false;
    this.go(0);
    this.watch();
  }

  leave() {
    this.isOn = false;
    this.strip.hidden = this.ring.hidden = true;
  }

  // Escape is first about what is under way and what is chosen.
  mayLeave() {
    const { bench, tools } = this.page;
    const isBusy = tools.held || tools.now.isDrawing || bench.map?.selected || bench.objectId !== null || isTyping() || window.document.querySelector("dialog[open]");
    return this.isOn && !isBusy;
  }

  go(task) {
    Object.assign(this, { task, part: 0, start: this.page.editor.stand() });
    const { title, parts } = TASKS[task];
    this.head.textContent = `Task ${task + 1} of ${TASKS.length}: ${title}`;
    this.parts.replaceChildren(...parts.map(({ name }) => element("li", { textContent: name })));
    this.next.textContent = task + 1 < TASKS.length ? "Next task" : "Done";
    this.next.onclick = () => (task + 1 < TASKS.length ? this.go(task + 1) : this.leave());
    this.look();
  }

  // Looks at each frame of the screen how far it is, as long as the lesson goes on.
  watch() {
    if (this.isWatching) return;
    this.isWatching = true;
    const frame = () => {
      this.isWatching = this.isOn;
      if (!this.isOn) return;
      this.look();
      requestAnimationFrame(frame);
    };
    requestAnimationFrame(frame);
  }

  look() {
    const { editor, bench } = this.page;
    if (this.document() === null) return this.leave();
    const { parts, end } = TASKS[this.task];
    const isHere = editor.openDocuments.active === this.document() && bench.map !== null;
    while (isHere && !bench.isHeld && parts[this.part]?.isDone(this.page, this.start)) this.part++;
    const part = parts[this.part];
    const wanted = !isHere ? this.back() : part ? part.needs?.find(need => !need.isMet(this.page)) ?? part : { words: end, at: () => this.next };
    this.show(wanted, !part);
  }

  // The document of the example is behind another one.
  back() {
    return { words: "The town is behind another tab.", at: () => window.document.querySelector(`.tab[data-document="${this.document()}"]`) };
  }

  show({ words, at }, isDone) {
    if (this.said.textContent !== words) this.said.textContent = words;
    this.next.hidden = !isDone;
    [...this.parts.children].forEach((row, place) => {
      row.className = place < this.part ? "done" : place === this.part ? "now" : "";
      row.ariaCurrent = place === this.part ? "step" : null;
    });
    this.showRing(at(this.page));
  }

  // The bar stands beside what the ring is around.
  keepTarget(box) {
    const targetPlace = box && [box.left, box.top, box.right, box.bottom].join(" ");
    if (targetPlace === this.targetPlace) return;
    Object.assign(this, { targetPlace, target: box });
    this.page.bars.place();
  }

  // A ring around an element, or around a box of the window.
  showRing(found) {
    const isElement = found instanceof Element;
    const box = isElement ? found.getBoundingClientRect() : found;
    const isSeen = Boolean(box && box.right > box.left && !window.document.querySelector("dialog[open]"));
    this.ring.hidden = !isSeen;
    this.keepTarget(isSeen && !(isElement && this.strip.contains(found)) ? box : null);
    if (!isSeen) return;
    const { style } = this.ring;
    [style.left, style.top] = [`${box.left - SIDE}px`, `${box.top - SIDE}px`];
    [style.width, style.height] = [`${box.right - box.left + 2 * SIDE}px`, `${box.bottom - box.top + 2 * SIDE}px`];
  }
}
