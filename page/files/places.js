// SPDX-License-Identifier: MIT OR Apache-2.0
// Where the files of maps, tilesets and images are: a folder, files that were chosen one by one, or those that `tile_page` serves.
//
// Each place has the same calls. A path leads from the folder of the maps. A mark, `{ hash, size, time }`, tells which bytes a file has.
//
//   kind, title       which one it is, and what stands beside the tabs
//   isDownload        whether a save is a download, which nobody sees end
//   maps(), tilesets(), names()  the files that may be maps, those of tilesets, and all files: [{ path, size, time }]
//   look(path)        the size and the time of a file; null where there is none, or where that cannot be told
//   read(path)        the bytes of a file and its mark: { bytes, mark }; null where there is none
//   bytes(path)       the bytes of a tileset or of an image; null where there is none
//   pathOf(path)      where a file is read that a map names by a path: elsewhere, where the user has found it
//   fileOf(path)      a text that tells the file of a path from all others that the page has seen, here and in other places
//   write(path, bytes, mark)  writes a file whole, and gives its new mark. `mark` tells what must be there: null that no file is.
//   advice(path)      what to do where a tileset is not there
import { kindOf } from "../../js/file_kinds.js";
import { Said, thrownWords } from "../core/thrown_words.js";
import { FoundFiles } from "./found_files.js";
import { hashOf } from "./hashes.js";
import { joined, lastOf, plainPath } from "./names.js";

// The longest file that is read.
export const LONGEST_FILE = 64 * 1024 * 1024;

export const isMapName = name => /\.(tmx|tmj|json)$/i.test(name);
export const isTilesetName = name => /\.(tsx|tsj)$/i.test(name);

// The file is not what it must be: it was changed by another program, or a file has come.
export class Changed extends Said {}

// The file cannot be read or written; the message says why.
export class Failed extends Said {}

async function markOf(bytes, time) {
  return { hash: await hashOf(bytes), size: bytes.length, time };
}

async function bytesOf(file) {
  if (file.size > LONGEST_FILE) throw new Failed(`it has more than ${LONGEST_FILE / 1024 / 1024} MiB`);
  return new Uint8Array(await file.arrayBuffer());
}

export function download(name, bytes, type = "application/json") {
  const link = document.createElement("a");
  link.href = URL.createObjectURL(new Blob([bytes], { type }));
  link.download = name;
  link.click();
  setTimeout(() => URL.revokeObjectURL(link.href), 60_000);
}

// Files that were chosen one by one. A save is a download under the file's own name.
export class ChosenFiles {
  constructor() {
    this.kind = "chosen";
    this.isDownload = true;
    this.files = new Map();
  }

  get title() {
    const { size } = this.files;
    return size ? `${size} chosen ${size === 1 ? "file" : "files"}` : "no files are chosen";
  }

  // Takes files with their bytes, as `{ path, bytes }`, beside those that it has.
  take(files) {
    for (const { path, bytes, time = 0, file = null } of files) this.files.set(path, { bytes, time, file });
  }

  // Chosen files stand beside one another, whatever folders a map names.
  found(path) {
    return this.files.get(path) ?? this.files.get(lastOf(path)) ?? null;
  }

  async maps() {
    return this.named(isMapName);
  }

  async tilesets() {
    return this.named(isTilesetName);
  }

  async names() {
    return this.named(() => true);
  }

  named(isWanted) {
    return [...this.files].filter(([path]) => isWanted(path)).map(([path, { bytes, time }]) => ({ path, size: bytes.length, time })).sort(byPath);
  }

  // A browser that still has the file tells whether it is another one by now.
  async look(path) {
    const { bytes, file, time } = this.files.get(path) ?? {};
    if (!file) return null;
    try {
      await file.slice(0, 1).arrayBuffer();
      return { size: bytes.length, time };
    } catch {
      return { size: -1, time: -1 };
    }
  }

  async read(path) {
    const found = this.files.get(path);
    if (found?.file && (await this.look(path)).size < 0) throw new Failed("it has changed; choose it anew by 'Open files'");
    return found ? { bytes: found.bytes, mark: await markOf(found.bytes, found.time) } : null;
  }

  async bytes(path) {
    return this.found(path)?.bytes ?? null;
  }

  pathOf(path) {
    return path;
  }

  fileOf(path) {
    const plain = plainPath(path);
    const isNamed = !this.files.has(plain) && this.files.has(lastOf(plain));
    return `chosen ${isNamed ? lastOf(plain) : plain}`;
  }

  async write(path, bytes) {
    download(lastOf(path), bytes, kindOf(bytes) === "tmx" ? "application/xml" : "application/json");
    const time = Date.now();
    this.files.set(path, { bytes: bytes.slice(), time, file: null, isSaved: true });
    return markOf(bytes, time);
  }

  advice() {
    return "Choose it, and its image, by 'Open files'.";
  }
}

const byPath = (one, other) => (one.path < other.path ? -1 : 1);

// Files that were chosen or dropped, with their bytes: those that can be read, each as `ChosenFiles.take` takes it.
export async function chosen(files) {
  const found = [];
  for (const file of files) found.push({ path: file.name, bytes: await bytesOf(file), time: file.lastModified, file });
  return found;
}

// A folder of this machine that the user has chosen, with what is below it. Events: `asks` where a save waits for the browser's own
// question, and `answered`.
export class FolderFiles extends EventTarget {
  constructor(folder) {
    super();
    this.kind = "folder";
    this.isDownload = false;
    this.folder = folder;
    this.title = folder.name || "the browser's own folder";
    this.found = new FoundFiles(this);
  }

  pathOf(path) {
    return this.found.pathOf(path);
  }

  // Whether it may be read and written; else the user must allow it by a click.
  async isAllowed() {
    return !this.folder.queryPermission || (await this.folder.queryPermission({ mode: "readwrite" })) === "granted";
  }

  async ask() {
    return (await this.folder.requestPermission({ mode: "readwrite" })) === "granted";
  }

  // The handle of the folder that a file stands in.
  async folderOf(path) {
    let folder = this.folder;
    for (const part of (joined("", path) ?? "").split("/").slice(0, -1)) folder = await folder.getDirectoryHandle(part);
    return folder;
  }

  // The handle of a file, or null.
  async handle(path, create = false) {
    try {
      return await (await this.folderOf(path)).getFileHandle(lastOf(joined("", path) ?? ""), { create });
    } catch (fault) {
      if (["NotFoundError", "TypeMismatchError", "TypeError"].includes(fault.name) && !create) return null;
      throw new Failed(thrownWords(fault));
    }
  }

  maps() {
    return this.named(isMapName);
  }

  tilesets() {
    return this.named(isTilesetName);
  }

  names() {
    return this.named(() => true);
  }

  async named(isWanted) {
    const found = [];
    await this.walk(this.folder, "", 0, found, isWanted);
    return found.sort(byPath);
  }

  async walk(folder, path, depth, found, isWanted) {
    for await (const [name, handle] of folder.entries()) {
      if (name.startsWith(".") || found.length >= MOST_FILES) continue;
      if (handle.kind === "directory" && depth < DEEPEST) await this.walk(handle, `${path}${name}/`, depth + 1, found, isWanted);
      else if (handle.kind === "file" && isWanted(name)) {
        const file = await handle.getFile();
        found.push({ path: path + name, size: file.size, time: file.lastModified });
      }
    }
  }

  async look(path) {
    const file = await (await this.handle(path))?.getFile();
    return file ? { size: file.size, time: file.lastModified } : { size: -1, time: -1 };
  }

  async read(path) {
    const file = await (await this.handle(path))?.getFile();
    if (!file) return null;
    const bytes = await bytesOf(file);
    return { bytes, mark: await markOf(bytes, file.lastModified) };
  }

  async bytes(path) {
    const file = await (await this.handle(path))?.getFile();
    return file ? bytesOf(file) : null;
  }

  fileOf(path) {
    return `folder ${plainPath(`${this.title}/${path}`)}`;
  }

  // The browser writes a file beside it, and puts that in its place as it is closed. Where that fails, a file that was made for it is taken
  // away.
  async write(path, bytes, mark) {
    // The file is looked at behind the question, which may take long.
    await this.allowed();
    await this.see(path, mark);
    const handle = await this.handle(path, true);
    try {
      const to = await handle.createWritable();
      await to.write(bytes);
      await to.close();
    } catch (fault) {
      if (mark === null) await this.removeEmpty(path);
      throw new Failed(thrownWords(fault));
    }
    return markOf(bytes, (await handle.getFile()).lastModified);
  }

  // Resolves once the page may write. Throws Failed where the user does not allow it.
  async allowed() {
    if (await this.isAllowed()) return;
    this.dispatchEvent(new Event("asks"));
    try {
      if (!(await this.ask())) throw new Failed(`the browser was told that this page may not write into the folder ${this.title}`);
    } catch (fault) {
      throw fault instanceof Failed ? fault : new Failed("the browser asks only behind a click or a key: save again");
    } finally {
      this.dispatchEvent(new Event("answered"));
    }
  }

  // Takes a file away that has no bytes. Where even that fails it stays.
  async removeEmpty(path) {
    try {
      const file = await this.handle(path);
      if ((await file?.getFile())?.size === 0) await (await this.folderOf(path)).removeEntry(file.name);
    } catch (fault) {
      console.warn(`${path} stays: ${fault.message}`);
    }
  }

  // Sees that the file is the one that it must be, by its time and size, and where they differ by its bytes.
  async see(path, mark) {
    const now = await this.look(path);
    if ((now.size < 0) !== (mark === null)) throw new Changed(path);
    if (mark && (now.size !== mark.size || now.time !== mark.time) && (await this.read(path))?.mark.hash !== mark.hash) throw new Changed(path);
  }

  advice() {
    return "Open the folder in which both the maps and the tilesets are.";
  }
}

// How many files a folder lists at most, and how deep its folders are looked into.
const MOST_FILES = 2000;
const DEEPEST = 8;

// The folder of `tile_page`. The server has no editor: it gives files, and takes those that are saved.
export class ServedFiles extends EventTarget {
  constructor(key) {
    super();
    this.kind = "served";
    this.isDownload = false;
    this.key = key;
    this.isGone = false;
    this.title = "";
    this.prefix = "";
    this.found = new FoundFiles(this);
  }

  pathOf(path) {
    return this.found.pathOf(path);
  }

  address(path) {
    return `${path}?key=${encodeURIComponent(this.key)}`;
  }

  // The address of a file; null where its path leads out of what is served.
  addressOf(path) {
    const full = joined(this.prefix, path);
    return full && this.address("/files/" + full.split("/").map(encodeURIComponent).join("/"));
  }

  async ask(address, options = {}) {
    let answer;
    try {
      answer = await fetch(address, options);
    } catch {
      this.lose("The server has ended, or does not answer.");
      throw new Failed("the server does not answer, and saving has to wait");
    }
    if (answer.status === 403) {
      this.lose("The server was started anew, and does not know this page.");
      throw new Failed("the server was started anew, and saving has to wait");
    }
    this.find();
    return answer;
  }

  lose(words) {
    if (this.isGone) return;
    this.isGone = true;
    this.dispatchEvent(new CustomEvent("gone", { detail: words }));
  }

  find() {
    if (!this.isGone) return;
    this.isGone = false;
    this.dispatchEvent(new CustomEvent("back"));
  }

  // What the server tells of its folder: its name, where it lies below the root, the files to open, the limit and the maps. Throws Failed
  // where another folder is served here by now.
  async folderListing() {
    const listing = await (await this.ask(this.address("/files"))).json();
    if (this.source && listing.source !== this.source) throw new Failed(`another folder is served here by now, ${listing.folder}`);
    this.title = listing.folder;
    this.source = listing.source;
    this.prefix = listing.prefix;
    return listing;
  }

  async maps() {
    return (await this.folderListing()).maps.sort(byPath);
  }

  async tilesets() {
    return (await (await this.ask(this.address("/tilesets"))).json()).sort(byPath);
  }

  async names() {
    return (await (await this.ask(this.address("/names"))).json()).sort(byPath);
  }

  async look(path) {
    const { maps } = await this.folderListing();
    return maps.find(each => each.path === path) ?? this.lookAt(path);
  }

  // A file that may be a map, and is not among those that are listed.
  async lookAt(path) {
    const found = await this.read(path);
    return found ? found.mark : { size: -1, time: -1 };
  }

  // The answer of the server that has a file; null where there is none.
  async answerWith(path) {
    const address = this.addressOf(path);
    const answer = address && (await this.ask(address));
    if (!answer || answer.status === 404) return null;
    if (!answer.ok) throw new Failed("the server cannot read it");
    return answer;
  }

  async read(path) {
    const answer = await this.answerWith(path);
    if (!answer) return null;
    const bytes = new Uint8Array(await answer.arrayBuffer());
    return { bytes, mark: await markOf(bytes, Number(answer.headers.get("Roskevad-Time"))) };
  }

  async bytes(path) {
    const answer = await this.answerWith(path);
    return answer && new Uint8Array(await answer.arrayBuffer());
  }

  // The server tells where its folder is.
  fileOf(path) {
    return `served ${plainPath(`${this.title}/${path}`)}`;
  }

  async write(path, bytes, mark) {
    const headers = mark ? { "If-Match": `"${mark.hash}"` } : { "If-None-Match": "*" };
    const address = this.addressOf(path);
    if (!address) throw new Failed("it lies outside of what the server has");
    await this.folderListing();
    const answer = await this.ask(address, { method: "PUT", body: bytes, headers });
    if (answer.status === 412) throw new Changed(path);
    if (!answer.ok) throw new Failed((await answer.text()).trim() || "the server did not take it");
    return markOf(bytes, Number(answer.headers.get("Roskevad-Time")));
  }

  advice(path) {
    const full = joined(this.prefix, path);
    if (full !== null) return "No such file is there.";
    const up = (this.prefix + path).split("/").filter(part => part === "..").length - this.prefix.split("/").length + 1;
    return `It lies outside of what is served: start tile_page with --root ${this.title.split("/").slice(0, -up).join("/") || "/"} .`;
  }
}
