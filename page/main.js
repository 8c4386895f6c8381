// SPDX-License-Identifier: MIT OR Apache-2.0
// Puts the page together: the editor, the drawing of its map, the tools, and the panels.
import { Bars } from "./panels/bars.js";
import { Bench } from "./core/bench.js";
import { Documents } from "./core/documents.js";
import { byId } from "./panels/dom.js";
import { PageEditor } from "./core/page_editor.js";
import { bindFieldUndo } from "./panels/field_undo.js";
import { recordSum } from "./core/journal.js";
import { Example, isExample } from "./panels/example.js";
import { Commands } from "./panels/commands.js";
import { KEPT_KEYS } from "./tools/keys.js";
import { Recent } from "./panels/recent.js";
import { JournalNotices } from "./panels/journal_notices.js";
import { LayerPanel } from "./panels/layer_panel.js";
import { Layouts } from "./view/layouts.js";
import { LinePanel } from "./panels/line_panel.js";
import { Look } from "./view/look.js";
import { MapKeys, TileKeys } from "./tools/map_keys.js";
import { MapView } from "./view/map_view.js";
import { handlePlaces } from "./view/object_handles.js";
import { MOST_WHOLE, Overlay } from "./view/overlay.js";
import { MiniMap } from "./view/mini_map.js";
import { undrawnFeatures } from "./view/undrawn_features.js";
import { NewMap } from "./panels/new_map.js";
import { endNotice, notice } from "./panels/notice_bars.js";
import { ObjectList } from "./panels/object_list.js";
import { loadModule } from "./core/own_module.js";
import { Palette } from "./panels/palette.js";
import { EDGE_KEYS, Panels } from "./panels/panels.js";
import { PictureChoice } from "./panels/picture_choice.js";
import { PlacePanel } from "./panels/place_panel.js";
import { ServedFiles } from "./files/places.js";
import { Player } from "./core/player.js";
import { PropertyPanel } from "./panels/property_panel.js";
import { Readers } from "./panels/readers.js";
import { Recovery } from "./core/recovery.js";
import { bindLists, groupsOfLists } from "./panels/list_navigation.js";
import { ScrollBars } from "./view/scroll_bars.js";
import { StartPage } from "./panels/start_page.js";
import { StatusBar } from "./panels/status_bar.js";
import { StepPanel } from "./panels/step_panel.js";
import { TilesetPanel } from "./panels/tileset_panel.js";
import { Tilesets } from "./view/tilesets.js";
import { Toolbar } from "./panels/toolbar.js";
import { Tools } from "./tools/tools.js";
import { thrownWords } from "./core/thrown_words.js";
import { toolFor } from "./tools/layer_tools.js";

// How many milliseconds a drawing is waited for.
const LONGEST_DRAWING = 2000;

// What the page needs of the browser.
const NEEDED = {
  "an address that is safe: of a disk, by https, or of this machine": () => isSecureContext,
  WebAssembly: () => globalThis.WebAssembly?.Module,
  "locks (Web Locks)": () => navigator.locks,
};

// The parts of the page, and what each shows when something has changed.
class Page {
  constructor(editor) {
    this.editor = editor;
    this.panels = new Panels(() => this.bench.tell("layout"));
    this.tilesets = new Tilesets(editor);
    this.view = new MapView(byId("view"), editor, this.tilesets);
    this.overlay = new Overlay(this.view, editor, this.tilesets);
    this.scrollBars = new ScrollBars(this.view);
    this.miniMap = new MiniMap(this.view, editor);
    const bench = this.bench = new Bench(editor, this.view, this.overlay, this.tilesets);
    this.bars = new Bars(this);
    this.tools = new Tools(bench);
    this.documents = new Documents(bench);
    this.layers = new LayerPanel(bench);
    this.toolbar = new Toolbar(bench, this.tools, this.documents, this.miniMap, this.layers);
    this.look = new Look(() => this.view.takeLook());
    this.startPage = new StartPage(bench, this.documents);
    this.miniMap.isBusy = () => bench.isHeld;
    this.palette = new Palette(bench, this.tilesets);
    this.pictures = new PictureChoice(bench, file => this.panel.keepPicture(file));
    this.documents.newMap = new NewMap(bench, this.pictures);
    this.layers.askPicture = () => this.pictures.ask("A picture for a new image layer", false);
    this.tilesetPanel = new TilesetPanel(bench, this.tilesets, this.palette, this.pictures);
    this.status = new StatusBar(bench, this.tilesets);
    this.properties = new PropertyPanel(bench);
    this.objects = new ObjectList(bench, this.tools);
    this.steps = new StepPanel(bench);
    this.panel = new PlacePanel(bench, this.documents, this.tilesets);
    this.recovery = new Recovery(bench, this.panel);
    this.recovery.shown = () => this.drawn();
    this.journalNotices = new JournalNotices(bench, this.documents);
    this.lines = new LinePanel(bench, { layer: id => this.steps.nameOf("layer", id), object: id => this.steps.nameOf("object", id) });
    this.player = new Player(bench);
    this.layouts = new Layouts(this);
    this.example = new Example(this);
    this.readers = new Readers(bench, this.layers);
    this.lists = bindLists(bench, this.documents, this.layers);
    this.addCommands();
    this.shownDocument = null;
    this.showing = Promise.resolve();
    this.listen();
    bindFieldUndo(bench);
    this.tools.choose("brush");
  }

  // The menus, and the tables of keys.
  addCommands() {
    const { bench, editor } = this;
    this.mapKeys = new MapKeys(this.tools, words => this.readers.say(words));
    this.tileKeys = new TileKeys(this.palette);
    this.clips = this.toolbar.clips;
    this.recent = new Recent(editor, this.documents, handle => this.panel.takeRecent(handle));
    this.panel.onFolder = handle => this.recent.keepFolder(handle);
    this.commands = new Commands(this);
    Object.assign(this.toolbar, { openMenu: () => this.commands.show(), renameObject: () => this.objects.renameChosen() });
    this.toolbar.keys.places = [...groupsOfLists(this.lists), this.mapKeys.group, this.tileKeys.group, EDGE_KEYS, KEPT_KEYS];
  }

  listen() {
    const { bench, editor, overlay, panel, view } = this;
    panel.onPicture = path => (this.editor.map ? this.tilesetPanel.makeOf(path) : this.documents.newMap.make(path));
    panel.onReplace = first => this.tilesetPanel.replaceLost(first);
    panel.onTilesets = () => {
      editor.templates.retry();
      this.showTilesets().catch(fault => console.warn(fault));
    };
    editor.addEventListener("map", ({ detail }) => (this.showing = this.showMap(detail)));
    editor.addEventListener("cells", ({ detail }) => view.refresh(detail));
    editor.addEventListener("objects", ({ detail }) => this.showObjects(detail));
    editor.addEventListener("selection", () => overlay.redraw());
    editor.addEventListener("state", () => this.showState());
    bench.addEventListener("free", () => this.showState());
    bench.addEventListener("chosen", () => this.showChosen());
    this.tilesets.onLooks = () => {
      view.redraw();
      this.miniMap.change();
    };
    view.images.onImage = () => {
      view.redraw();
      this.showNotDrawn();
    };
    view.onMove = () => {
      const percents = view.scale * 100;
      byId("scale").textContent = `${percents < 10 ? Math.round(percents * 10) / 10 : Math.round(percents)} %`;
      overlay.redraw();
      this.scrollBars.show();
      this.miniMap.show();
      this.layouts.keep();
    };
  }

  // Another map, or another outline with other cells in some parts alone, where these are told. Its tilesets may be others. Where its document
  // is another one it is shown as it was left, and whole at first.
  async showMap(parts) {
    const { active } = this.editor.openDocuments;
    const isOther = active !== this.shownDocument;
    const { shift } = this.editor;
    this.shownDocument = active;
    if (isOther) this.bench.tell("document");
    const kept = isOther ? this.layouts.enter(active) : null;
    const { isOther: isOtherStamp, why } = this.bench.carried.follow();
    this.bench.settle();
    if (isOther) this.view.images.forget();
    // Where the map of a document cannot be shown, no hand is on it.
    this.view.box.inert = active !== null && !this.editor.map;
    if (isOther && !kept) this.showFirst();
    this.view.takeMap(isOther ? null : parts, isOther ? null : shift);
    this.showNotDrawn();
    this.overlay.redraw();
    await this.editor.during(this.showTilesets());
    if (this.shownDocument !== active) return;
    const whyKept = kept ? this.layouts.enterTiles(kept) : "";
    if (isOtherStamp && !kept?.stamp) this.bench.tell("stamp");
    const words = kept?.stamp ? whyKept : why;
    // What is said of the lines that have led here comes first.
    if (words) await this.editor.during(new Promise(done => setTimeout(() => done(this.bench.say(words)))));
  }

  // Shows a map for the first time: all of it, with a tool that its layer takes.
  showFirst() {
    const { bench, tools } = this;
    this.view.fit();
    const name = toolFor(bench.layer, tools.name);
    if (name !== tools.name) tools.choose(name);
  }

  // Objects of the map have come, gone or changed, each from what it was before.
  showObjects(changes) {
    const all = changes.flatMap(({ object, before, layer }) => [before, object].filter(each => each).map(each => ({ object: each, layer })));
    this.view.redrawThings(all);
    this.overlay.redrawObjects(all);
    this.objects.showObjects(changes);
    if (changes.some(({ object, before }) => !object || !before)) this.showOtherObjects();
    else this.properties.show();
  }

  // Other objects are there: one that is chosen may be gone. Where there are many, not all are drawn whole.
  showOtherObjects() {
    if (this.editor.map.places.size >= MOST_WHOLE) this.overlay.redraw();
    this.bench.settle();
    this.showNotDrawn();
  }

  // Resolves when the map that was taken last is drawn, with its tilesets. A window that is not seen draws nothing.
  async drawn() {
    await this.showing;
    const frame = new Promise(done => requestAnimationFrame(() => requestAnimationFrame(done)));
    await Promise.race([frame, new Promise(done => setTimeout(done, LONGEST_DRAWING))]);
  }

  async showTilesets() {
    const { bench, editor, tilesets } = this;
    if (await editor.templates.take(editor.map)) editor.renewMap();
    if (!(await tilesets.take(editor.map))) return;
    this.tilesetPanel.show();
    this.view.images.forget();
    this.view.redraw();
    this.miniMap.change();
    this.showNotDrawn();
    this.panel.showMissing();
  }

  showNotDrawn() {
    this.status.showNotDrawn(undrawnFeatures(this.editor.map, this.tilesets, this.view.images));
  }

  showState() {
    if (this.bench.isHeld) return;
    this.documents.show();
    this.steps.show();
    this.toolbar.show();
    this.tilesetPanel.showButtons();
    this.status.showState(this.editor.state);
    this.showChosen();
  }

  showChosen() {
    this.toolbar.showTools();
    this.layers.show();
    this.properties.show();
  }
}

// What the server tells, where the page came from `tile_page`; null where it is gone already.
async function servedBy(key) {
  const place = new ServedFiles(key);
  place.addEventListener("gone", ({ detail }) => {
    const words = `${detail} Saving has to wait; all else goes on. Where it prints another address as it starts again, open that in this tab.`;
    notice("server", words, [["Try again", () => place.folderListing().then(() => true, () => false)]]);
  });
  place.addEventListener("back", () => endNotice("server"));
  return { place, listing: await place.folderListing().catch(() => ({ files: [], limit: 0 })) };
}

// Opens the files that the server was started with. One that fails keeps no other one away.
async function openAll(page, paths) {
  for (const path of paths) await page.documents.openPath(path).catch(fault => page.bench.say(`${path}: ${thrownWords(fault)}.`));
}

async function start() {
  const missing = Object.keys(NEEDED).filter(name => !NEEDED[name]());
  if (missing.length) return notice("needed", `This page cannot work here. It needs ${missing.join(", ")}.`);
  const key = isExample() ? null : new URLSearchParams(location.search).get("key");
  const [module, served] = await Promise.all([loadModule(), key === null ? null : servedBy(key)]);
  const editor = new PageEditor(module, served?.listing.limit ?? 0);
  if (served) editor.place = served.place;
  const page = new Page(editor);
  await editor.journal.start();
  page.panel.start();
  page.toolbar.show();
  const isRestored = await page.recovery.start();
  if (!isRestored && served) await openAll(page, served.listing.files);
  if (!isRestored && isExample()) await page.example.open();
  editor.tellSoon();
  await editor.telling;
  // For the console, and for scripts that try the page.
  page.sumOf = recordSum;
  page.handlesOf = handlePlaces;
  globalThis.roskevad = page;
  document.body.dataset.isReady = "yes";
  return page;
}

await start();
