// SPDX-License-Identifier: MIT OR Apache-2.0
// Where the files come from: a folder of this machine, files that are chosen or dropped, or the folder that a server gives.
import { ask, byId, element } from "./dom.js";
import { iconButton } from "./icons.js";
import { endNotice, notice } from "./notice_bars.js";
import { ChosenFiles, Failed, FolderFiles, chosen, isMapName, isTilesetName } from "../files/places.js";
import { isTemplateName } from "../files/templates.js";
import { isSameSource, sourceOf, wordsOf } from "../files/sources.js";
import { findLost } from "./lost_files.js";
import { hashOf } from "../files/hashes.js";
import { isPictureName } from "../files/new_tilesets.js";
import { lastOf } from "../files/names.js";
import { thrownWords } from "../core/thrown_words.js";

// What notices are about; how many files one names.
const OTHERS = "other files";
const SOURCE = "source";
const PERMISSION = "permission";
const PICTURE = "picture";
const MOST_NAMED = 3;
// How many maps are opened without a question.
const MOST_UNASKED = 5;
const IMAGE = /\.(png|jpe?g|gif|webp|bmp|svg|avif)$/i;

// What lists a file of this name.
function listerOf(name) {
  if (isPictureName(name)) return "New tileset";
  return isTilesetName(name) ? "Add a tileset" : "Open";
}

export class PlacePanel {
  constructor(bench, documents, tilesets) {
    Object.assign(this, { bench, documents, tilesets, editor: bench.editor });
    // Called where the tilesets may be others, where something is to be made of a picture, where a folder was opened, and where a lost tileset
    // is to be replaced: that of a first id.
    this.onTilesets = () => {};
    this.onReplace = () => {};
    this.onPicture = () => {};
    this.onFolder = () => {};
  }

  // Shows the buttons that choose files, where no server gives them.
  start() {
    const isServed = this.editor.place.kind === "served";
    addEventListener("dragover", event => event.preventDefault());
    addEventListener("drop", event => (isServed ? this.refuseDrop(event) : this.drop(event)));
    if (isServed) return;
    const input = element("input", { type: "file", multiple: true, hidden: true, id: "files", onchange: async () => {
      await this.takeChosen([...input.files]);
      input.value = "";
    } });
    const title = "Open files: choose maps, tilesets and images; or drop them here. A save is a download then";
    const more = [iconButton("files", "Open files", title, () => input.click(), { id: "open-files" }), input];
    if (globalThis.showDirectoryPicker) {
      const said = "Open folder: choose that of the maps and of their tilesets; a save goes there";
      more.unshift(iconButton("folder", "Open folder", said, () => this.chooseFolder(), { id: "open-folder" }));
    }
    byId("file-actions").append(...more);
  }

  async chooseFolder() {
    let folder;
    try {
      folder = await globalThis.showDirectoryPicker({ mode: "readwrite" });
    } catch (fault) {
      if (fault.name !== "AbortError") this.bench.say(`The folder was not opened: ${thrownWords(fault)}.`);
      return;
    }
    await this.takeFolder(folder);
  }

  // Opens a folder that was open before, where the browser still lets the page.
  async takeRecent(folder) {
    try {
      if ((await folder.requestPermission({ mode: "readwrite" })) === "granted") await this.takeFolder(folder);
      else this.bench.say(`The browser was told that this page may not read the folder ${folder.name}.`);
    } catch (fault) {
      this.bench.say(`The folder was not opened: ${thrownWords(fault)}.`);
    }
  }

  async takeFolder(folder) {
    const [before, place] = [sourceOf(this.editor.place), new FolderFiles(folder)];
    const isOther = before.kind === place.kind && !(await isSameSource(before, place));
    this.take(place);
    this.onFolder(folder);
    if (isOther && [...this.editor.openDocuments.byName.values()].some(document => document.file)) this.part(before);
    this.editor.journal.keepSource();
    if (!this.editor.openDocuments.byName.size) await this.documents.openAny();
  }

  // The documents are of files of another source: here they have none.
  part(source) {
    this.editor.part();
    notice(SOURCE, `These maps are of ${wordsOf(source)}. They have no files here: a save asks where.`, [["OK", () => {}]], "mild");
  }

  // Files of the user's choice: those that are maps are opened.
  takeChosen(files) {
    return this.editor.during(this.takeAll(files));
  }

  async takeAll(files) {
    let taken;
    try {
      taken = await chosen(files);
    } catch (fault) {
      this.bench.say(`Not read: ${thrownWords(fault)}.`);
      return;
    }
    const place = this.editor.place.kind === "chosen" ? this.editor.place : new ChosenFiles();
    const wanted = new Set(this.tilesets.missing.map(lastOf));
    place.take(taken);
    this.take(place);
    this.editor.journal.keepSource(taken);
    const maps = taken.filter(({ path, bytes }) => isMap(path, bytes)).map(each => each.path);
    const isList = maps.length > MOST_UNASKED && !(await this.wantsAll(maps.length));
    if (!isList) for (const path of maps) await this.documents.openPath(path);
    this.sayOthers(taken);
    this.offerPicture(taken.map(each => each.path).filter(path => !wanted.has(path)), taken.length);
    // Where no map is open, they stand there with pictures.
    if (isList && this.editor.openDocuments.active !== null) await this.documents.open();
  }

  // Whether so many maps are all to be opened; else they are there to be chosen from.
  async wantsAll(count) {
    const all = `Open all ${count}`;
    return (await ask(`${count} maps were chosen. Each that is opened has a tab.`, [], ["Choose from them", all]))?.answer === all;
  }

  // Says what can be made of a picture that has come alone, and that no tileset waited for.
  offerPicture([path = ""], count) {
    if (count !== 1 || !isPictureName(path)) return endNotice(PICTURE);
    const text = this.bench.map ? "Make a tileset of it" : "Make a map with it";
    return notice(PICTURE, `${path} is a picture.`, [[text, () => void this.onPicture(path)], ["OK", () => {}]], "mild");
  }

  // Puts pictures that were dropped into the folder, beside the map.
  async takeIntoFolder(files) {
    try {
      const paths = [];
      for (const file of files) paths.push(await this.editor.during(this.keepPicture(file)));
      this.offerPicture(paths, paths.length);
    } catch (fault) {
      this.bench.say(`Not taken: ${thrownWords(fault)}.`);
    }
  }

  // Has a picture of this machine stand beside the map's file: among the chosen files, or as a copy in the folder, where none of that name is
  // there. Gives its path. Throws Failed.
  async keepPicture(file) {
    const { editor } = this;
    const [taken] = await chosen([file]);
    const { place } = editor;
    if (place.kind === "chosen") {
      place.take([taken]);
      this.take(place);
      editor.journal.keepSource([taken]);
      return taken.path;
    }
    const path = editor.folder + taken.path;
    const there = await place.read(path);
    if (there && there.mark.hash !== (await hashOf(taken.bytes))) throw new Failed(`${path} is there already, and is another one`);
    if (!there) await place.write(path, taken.bytes, null);
    return path;
  }

  // Says which of the files are passed over, and what to do.
  sayOthers(taken) {
    const words = wordsOfOthers(taken);
    if (words) notice(OTHERS, words, [["OK", () => {}]], "mild");
    else endNotice(OTHERS);
  }

  take(place) {
    this.editor.place = place;
    if (place.kind === "folder") this.sayAsking(place);
    this.tilesets.forget();
    endNotice("tilesets");
    this.onTilesets();
    this.editor.tellSoon();
  }

  // Says for as long as the browser asks for a folder that saves wait for the answer.
  sayAsking(place) {
    const words = `The browser asks whether this page may write into the folder ${place.title}. What is saved waits for your answer; the maps can be worked on.`;
    place.addEventListener("asks", () => notice(PERMISSION, words));
    place.addEventListener("answered", () => endNotice(PERMISSION));
  }

  async drop(event) {
    event.preventDefault();
    // Where something is under way that no other line may come into.
    if (document.querySelector("dialog[data-busy]")) return;
    const items = [...event.dataTransfer.items].filter(item => item.kind === "file");
    const files = [...event.dataTransfer.files];
    const handles = await Promise.all(items.map(item => item.getAsFileSystemHandle?.() ?? null));
    const folder = handles.find(handle => handle?.kind === "directory");
    if (folder) await this.takeFolder(folder);
    else if (files.length && this.editor.place.kind === "folder" && files.every(({ name }) => isPictureName(name))) await this.takeIntoFolder(files);
    else if (files.length) await this.takeChosen(files);
  }

  // Where a server gives the folder no file is taken: says where it has to be. The browser, left to itself, would show it in the place of the page.
  refuseDrop(event) {
    event.preventDefault();
    const [file, ...others] = event.dataTransfer.files;
    if (!file) return null;
    const [what, then] = others.length ? ["these files", "they are listed"] : [file.name, `it is listed by ${listerOf(file.name)}`];
    return this.bench.say(`Put ${what} into the folder ${this.editor.place.title}: then ${then}.`);
  }

  // Has a file that is lost chosen from those of the folder: it is read from there.
  async find(missing) {
    const words = await findLost(this.editor.place, missing).catch(fault => `It was not found: ${thrownWords(fault)}.`);
    if (!words) return this.showMissing();
    this.tilesets.forget();
    this.onTilesets();
    return this.bench.say(words);
  }

  // Says which files of tilesets cannot be had, and what to do.
  showMissing() {
    const { missing } = this.tilesets;
    if (!missing.length) return endNotice("tilesets");
    const [first, ...others] = missing;
    const more = others.length ? ` and ${others.length} more` : "";
    const words = `Not found: ${first}${more}. ${this.editor.place.advice(first)} Its tiles are drawn as numbers.`;
    const find = this.editor.place.kind === "chosen" ? () => byId("files").click() : () => this.find(missing);
    const buttons = [["Find it", find, "Choose where the file is, and its image"], ["OK", () => {}]];
    const lost = this.tilesets.all.find(({ source }) => source && this.tilesets.folder + source === first);
    if (lost) buttons.splice(1, 0, ["Replace it", () => this.onReplace(lost.first), "Choose another tileset: its tiles keep their places"]);
    return notice("tilesets", words, buttons, "mild");
  }
}

const textOf = bytes => new TextDecoder().decode(bytes);

// Whether a chosen file is opened: a map, and no tileset in JSON.
function isMap(path, bytes) {
  return isMapName(path) && (!/\.json$/i.test(path) || textOf(bytes).includes('"layers"'));
}

// Whether a chosen file is for a map: a tileset, an image, or whatever a browser shows as one.
function isForMaps({ path, bytes, file }) {
  if (/\.json$/i.test(path)) return textOf(bytes).includes('"tilewidth"');
  return isTilesetName(path) || isTemplateName(path) || IMAGE.test(path) || (file?.type ?? "").startsWith("image/");
}

// What is said of chosen files that are neither maps nor for maps; "" where there is none.
function wordsOfOthers(taken) {
  const others = taken.filter(each => !isMap(each.path, each.bytes) && !isForMaps(each)).map(each => each.path);
  return others.length ? `Passed over: ${listOf(others)}. The page opens maps (.tmx, .tmj or .json), with their tilesets and images.` : "";
}

// The first of some names, and how many more there are.
function listOf(names) {
  const more = names.length - MOST_NAMED;
  return `${names.slice(0, MOST_NAMED).join(", ")}${more > 0 ? ` and ${more} more` : ""}`;
}
