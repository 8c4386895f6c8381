// SPDX-License-Identifier: MIT OR Apache-2.0
// The open documents as tabs, and what is done with whole maps: new, open, save, close, resize.
import { NO_MAP, allow, ask, byId, destroying, element, putText } from "../panels/dom.js";
import { iconButton } from "../panels/icons.js";
import { KINDS } from "./kinds.js";
import { isOfMap } from "./map_refusals.js";
import { FileList } from "../files/file_list.js";
import { MapProbe } from "../files/map_probe.js";
import { lastOf } from "../files/names.js";
import { OutsideChanges } from "../files/outside_changes.js";
import { saidOf } from "./refusals.js";
import { thrownWords } from "./thrown_words.js";
import { whyTooMany } from "../panels/new_map.js";
import { notice } from "../panels/notice_bars.js";
import { resizeFields } from "../panels/resize_fields.js";
import { Tabs, titleOf } from "../panels/tabs.js";

// What a notice is about that a file is not as its name says.
const UNLIKE = "unlike";
// What may be answered where a document is closed.
const SAVE = "Save and close";
const DISCARD = destroying("Discard");
const WAIT = "Wait, then close";
const LEAVE = destroying("Leave it");

export class Documents {
  constructor(bench) {
    this.bench = bench;
    this.editor = bench.editor;
    // The dialog for a new map: the page sets it.
    this.newMap = null;
    byId("file-actions").append(
      iconButton("new", "New", "New map", () => this.make(), { id: "new" }),
      iconButton("open", "Open", "Open a map (Ctrl+O)", () => this.open(), { id: "open" }),
      iconButton("save", "Save", "Save the map into its file (Ctrl+S)", () => this.save(), { id: "save" }),
      element("span", { id: "save-hint" }),
      iconButton("saveAs", "Save as", "Save as: the map into another file (Ctrl+Shift+S)", () => this.saveAs(), { id: "save-as" }),
      iconButton("resize", "Resize", "Resize: another size of the map", () => this.resize(), { id: "resize" }),
    );
    this.tabs = new Tabs(bench, this);
    this.editor.addEventListener("unlike", ({ detail }) => notice(UNLIKE, detail, [["OK", () => {}]], "mild"));
    this.outside = new OutsideChanges(bench, document => this.saveAs(document), new MapProbe());
  }

  show() {
    const { active, isClean, file } = this.editor.state;
    this.tabs.show();
    document.title = active ? `${isClean ? "" : "• "}${titleOf({ name: active, path: file })} – Roskevad` : "Roskevad";
    byId("empty").hidden = Boolean(active);
    document.querySelector("main").classList.toggle("no-map", !active);
    const why = active ? "" : NO_MAP;
    allow(byId("save"), `Save the map into ${file ? `its file, ${file}` : "a file"} (Ctrl+S)`, why);
    allow(byId("save-as"), "Save as: the map into another file (Ctrl+Shift+S)", why);
    allow(byId("resize"), "Resize: another size of the map", why);
    putText(byId("save-hint"), this.editor.place.isDownload ? "saves are downloads" : "");
    byId("save-hint").title = "The browser does not tell whether a download is kept. So the page keeps a map, too, until it is closed.";
    putText(byId("folder"), this.editor.place.title);
    byId("folder").title = `Where the maps are: ${this.editor.place.title}`;
  }

  make() {
    return this.newMap.make();
  }

  // ---- opening
  async open() {
    const { place } = this.editor;
    const maps = await place.maps().catch(fault => this.bench.say(`The files cannot be listed: ${thrownWords(fault)}.`) ?? []);
    const known = new Map(this.editor.documents().map(each => [each.path, "open"]));
    const probe = new MapProbe();
    const path = await new FileList("Open a map", maps, { known, look: path => probe.look(place, path), none: "There is no map here." }).ask();
    if (path) await this.openPath(path);
  }

  // The same, where the place has a map: else there is nothing to choose from.
  async openAny() {
    const maps = await this.editor.place.maps().catch(() => null);
    if (!maps || maps.length) await this.open();
  }

  // Opens a file, or shows the document that has it already.
  async openPath(path) {
    const open = this.editor.documents().find(each => each.path === path);
    if (open) return this.bench.act([`use ${open.name}`]);
    const done = await this.editor.openPath(path);
    if (done.refusal && isOfMap(done.refusal.code)) return this.bench.say(`${lastOf(path)} was not opened. ${saidOf(done)}`) ?? done;
    return this.bench.sayRefusal(done);
  }

  // ---- saving
  save() {
    const { file, active, isClean } = this.editor.standing();
    if (!active) return this.sayNone();
    if (!file) return this.saveAs();
    if (!isClean) return this.saveTo(this.editor.openDocuments.document, file);
    this.bench.say(`${file} is saved already.`);
    return { isAccepted: true };
  }

  sayNone() {
    this.bench.say("Open a map first.");
    return { isAccepted: false };
  }

  // Saves a document, into its file or into one that is asked for.
  saveOf(document) {
    return document.file ? this.saveTo(document, document.file.path) : this.saveAs(document);
  }

  async saveTo(document, path) {
    return this.bench.sayRefusal(await this.editor.saveInto(document, path));
  }

  // Asks for a name and saves a document under it. Where that is refused it asks anew, with why; but not where the user kept a file as it is.
  async saveAs(document = this.editor.openDocuments.document, typed = null, refusal = null) {
    if (!document) return this.sayNone();
    const field = { name: "file", label: "File", value: typed ?? document.file?.path ?? `${document.name}.tmj`, kind: KINDS.path };
    const chosen = await ask("Save the map", [field], ["OK"], undefined, refusal);
    if (!chosen) return { isAccepted: false };
    const done = await this.saveTo(document, chosen.file);
    return done.isAccepted || done.isKept || !done.refusal ? done : this.saveAs(document, chosen.file, { words: saidOf(done) });
  }

  // ---- closing
  // Closes a document; where it is not saved, or is being saved, asks first.
  async close(name) {
    const document = this.editor.openDocuments.byName.get(name);
    const found = this.editor.documents().find(each => each.name === name);
    if (!document) return null;
    if (found.isClean) return this.closed(document);
    const typed = await (found.isWriting ? this.askWriting(found) : ask(`${titleOf(found)} has changes that are not saved.`, [], [SAVE, DISCARD]));
    if (typed?.answer === DISCARD.text || typed?.answer === LEAVE.text) return this.closed(document, "discard");
    if (typed?.answer === WAIT) return document.written().then(() => this.editor.openDocuments.isOpen(document) && this.close(name));
    if (typed?.answer !== SAVE) return null;
    const saved = await this.saveOf(document);
    return saved.isAccepted ? this.closed(document) : null;
  }

  askWriting(found) {
    return ask(`${titleOf(found)} is being saved. If it is left now, nobody tells whether the file was written.`, [], [WAIT, LEAVE]);
  }

  // Where it was the active one, its neighbour is active then: the one to the right, or else to the left.
  async closed(document, word = "close") {
    const { name } = document;
    if (!this.editor.openDocuments.isOpen(document)) return null;
    const documents = this.editor.documents();
    const at = documents.findIndex(each => each.name === name);
    const neighbour = documents[at]?.isActive ? documents[at + 1] ?? documents[at - 1] : null;
    const done = await this.bench.act([`${word} ${name}`, ...(neighbour ? [`use ${neighbour.name}`] : [])]);
    if (done.isAccepted) this.outside.forget(document);
    return done;
  }

  async resize() {
    const map = this.bench.map;
    if (!map) return;
    await ask("Another size of the map", resizeFields(map), ["OK"], ({ width, height, right, down }) => {
      const words = whyTooMany(width, height);
      return words ? { words } : this.bench.attempt([`resize ${width} ${height} ${right} ${down}`]);
    });
  }
}

