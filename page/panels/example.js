// SPDX-License-Identifier: MIT OR Apache-2.0
// The example world, which the page has in itself: the town with its tileset, and a lesson on it.
import { byId } from "./dom.js";
import { iconButton } from "./icons.js";
import { Lesson } from "./lesson.js";

// The map of the example, and the word behind `#` of a window that is opened for it.
const MAP = "town.tmj";
const WORD = "#try";

export const isExample = () => location.hash === WORD;

// The files, as the page has them: texts as they are, and images in base64.
function files() {
  const { texts, images } = JSON.parse(byId("example").textContent);
  const bytesOf = coded => Uint8Array.from(atob(coded), sign => sign.charCodeAt(0));
  const all = [...Object.entries(texts), ...Object.entries(images).map(([name, coded]) => [name, bytesOf(coded)])];
  return all.map(([name, data]) => new File([data], name));
}

export class Example {
  constructor(page) {
    this.page = page;
    this.lesson = new Lesson(page, () => this.document);
    this.button = iconButton("lesson", "Try it", "", () => this.start(), { id: "try" });
    byId("file-actions").append(this.button);
    page.editor.addEventListener("state", () => this.showTitle());
    this.showTitle();
  }

  // Whether the example opens in this window. One that has files of the user's own keeps them.
  get isHere() {
    const { editor } = this.page;
    return Boolean(this.document) || isExample() || (editor.place.kind === "chosen" && !editor.place.files.size && !editor.documents().length);
  }

  showTitle() {
    const more = this.isHere ? "" : ". It opens in a new tab; your maps stay here";
    this.button.title = `Try it: the example world, with three tasks of two minutes${more}`;
  }

  // The document of the example; null where it is not open here.
  get document() {
    return this.name && this.page.editor.documents().some(each => each.name === this.name) ? this.name : null;
  }

  async start() {
    if (this.isHere) return this.open();
    const opened = open(`${location.pathname}${location.search}${WORD}`);
    return this.page.bench.say(opened ? "The example world is in a new tab. Your maps stay here." : "The browser opens no new tab: allow it for this page.");
  }

  // Opens it in this window, or goes to it, and begins the lesson.
  async open() {
    const { panel, editor, bench } = this.page;
    const found = () => editor.documents().find(each => each.path === MAP)?.name ?? null;
    this.name = found();
    if (!this.name) await panel.takeChosen(files());
    this.name ??= found();
    if (!this.document) return;
    if (editor.openDocuments.active !== this.name) await bench.act([`use ${this.name}`]);
    await this.lesson.begin();
  }
}
