// SPDX-License-Identifier: MIT OR Apache-2.0
// What stands where no map is open: how to begin, and the maps of the folder with pictures, each made when its place is first seen.
import { byId, element } from "./dom.js";
import { sizeOf } from "../files/file_list.js";
import { icon } from "./icons.js";
import { MapProbe } from "../files/map_probe.js";
import { sketch } from "../view/map_sketch.js";

// The most maps that are listed, the largest file of which a picture is made, and its size in pixels of the page.
const MOST_MAPS = 200;
const LARGEST_DRAWN = 4 * 1024 * 1024;
const [WIDTH, HEIGHT] = [176, 120];
// Where the browser or the server gives no such button, none stands here.
const WAYS = [["new", "New map", "new"], ["folder", "Open folder", "open-folder"], ["files", "Open files", "open-files"], ["lesson", "Try it", "try"]];

export class StartPage {
  constructor(bench, documents) {
    Object.assign(this, { bench, documents, editor: bench.editor, probe: new MapProbe(), waiting: [], isBusy: false, said: "", place: null });
    this.box = byId("empty");
    this.list = element("ul", { id: "start-maps" });
    this.ways = element("div", { id: "start-ways" });
    this.hint = element("p", { id: "start-hint" });
    this.box.append(element("h1", { textContent: "Draw a map" }), this.ways, this.hint, this.list);
    for (const kind of ["pointerdown", "pointermove", "pointerup", "wheel"]) this.box.addEventListener(kind, event => event.stopPropagation());
    this.seen = new IntersectionObserver(entries => entries.forEach(each => each.isIntersecting && this.see(each.target)), { root: this.box });
    this.editor.addEventListener("state", () => this.show());
  }

  get isShown() {
    return this.editor.openDocuments.active === null;
  }

  async show() {
    if (!this.isShown) {
      this.waiting = [];
      this.isFresh = false;
      return;
    }
    const { place } = this.editor;
    this.showWays();
    // A folder is read again where another one was chosen, or the last map was closed.
    if (this.isFresh && place === this.place && place.kind !== "chosen") return;
    Object.assign(this, { isFresh: true, place });
    const maps = (await place.maps().catch(() => [])).slice(0, MOST_MAPS);
    const said = JSON.stringify([place.title, maps]);
    if (said === this.said || place !== this.editor.place) return;
    this.said = said;
    this.put(maps);
  }

  showWays() {
    const ways = WAYS.filter(([, , id]) => byId(id));
    if (this.ways.children.length === ways.length) {
      ways.forEach(([, , id], at) => (this.ways.children[at].title = byId(id).title));
      return;
    }
    this.ways.replaceChildren(...ways.map(([picture, text, id]) => {
      const way = element("button", { type: "button", textContent: text, title: byId(id).title, onclick: () => byId(id).click() });
      way.prepend(icon(picture));
      return way;
    }));
  }

  put(maps) {
    this.seen.disconnect();
    this.waiting = [];
    this.hint.textContent = maps.length ? `Or go on with a map of ${this.editor.place.title || "this folder"}:` : this.wordsOfNone();
    this.list.replaceChildren(...maps.map(each => this.card(each)));
    for (const card of this.list.children) this.seen.observe(card);
  }

  // What to do where the place has no map.
  wordsOfNone() {
    const { kind, title, files } = this.editor.place;
    if (kind !== "chosen") return `There is no map in ${title || "this folder"} yet: make a new one.`;
    return files.size ? "No map is among the chosen files: choose one, too, or make a new one." : "Make a new map, or open some: choose them, or drop files or a folder here.";
  }

  card({ path, size }) {
    const ratio = devicePixelRatio;
    const canvas = element("canvas", { width: Math.round(WIDTH * ratio), height: Math.round(HEIGHT * ratio) });
    const details = element("span", { className: "details", textContent: sizeOf(size) });
    const parts = [canvas, element("span", { className: "name", textContent: path }), details];
    const open = element("button", { type: "button", title: `Open ${path}`, onclick: () => this.documents.openPath(path) }, ...parts);
    return element("li", { data: { path, size } }, open);
  }

  // ---- pictures: one map is looked into behind the other
  see(card) {
    this.seen.unobserve(card);
    if (Number(card.dataset.size) > LARGEST_DRAWN) return;
    this.waiting.push(card);
    if (!this.isBusy) this.drawAll();
  }

  async drawAll() {
    this.isBusy = true;
    while (this.waiting.length) {
      // A map that is being opened comes first, and takes this page away.
      await this.editor.free();
      const card = this.waiting.shift();
      if (card && this.isShown) await this.draw(card).catch(fault => console.warn(fault));
    }
    this.isBusy = false;
  }

  async draw(card) {
    const { place } = this;
    const { path, size } = card.dataset;
    const isOver = () => !card.isConnected || !this.isShown;
    const looked = await this.probe.look(place, path, editor => sketch(editor, place, path, card.querySelector("canvas"), isOver));
    card.classList.toggle("refused", looked.isRefused);
    const map = looked.found;
    card.querySelector(".details").textContent = map ? `${map.width} × ${map.height} · ${sizeOf(Number(size))}` : looked.words;
    card.dataset.drawn = "yes";
  }
}
