// SPDX-License-Identifier: MIT OR Apache-2.0
// What was opened lately: folders, by the browser's own handles of them, and maps of the place that is open. The browser keeps both.
const DATABASE = "roskevad-recent";
const STORE = "folders";
const FILES = "roskevad-recent-files";
const MOST = 8;

const resultOf = request => new Promise((resolve, reject) => {
  request.onsuccess = () => resolve(request.result);
  request.onerror = () => reject(request.error);
});

async function store(mode) {
  const asked = indexedDB.open(DATABASE, 1);
  asked.onupgradeneeded = () => asked.result.createObjectStore(STORE, { keyPath: "name" });
  return (await resultOf(asked)).transaction(STORE, mode).objectStore(STORE);
}

function filesKept() {
  try {
    const all = JSON.parse(localStorage.getItem(FILES));
    return Array.isArray(all) ? all.filter(each => typeof each?.path === "string" && typeof each.place === "string") : [];
  } catch {
    return [];
  }
}

export class Recent {
  // `takeFolder` opens a folder by its handle.
  constructor(editor, documents, takeFolder) {
    Object.assign(this, { editor, documents, takeFolder, folders: [] });
    editor.addEventListener("state", () => this.keepFile());
    this.read();
  }

  async read() {
    try {
      const all = await resultOf((await store("readonly")).getAll());
      this.folders = all.sort((one, other) => other.time - one.time).slice(0, MOST);
    } catch (fault) {
      console.warn("recent folders are not kept", fault);
    }
  }

  // Keeps a folder; of two of one name the last one.
  async keepFolder(handle) {
    try {
      const folders = await store("readwrite");
      folders.put({ name: handle.name, handle, time: Date.now() });
      for (const { name } of this.folders.slice(MOST - 1)) folders.delete(name);
      await this.read();
    } catch (fault) {
      console.warn("a recent folder is not kept", fault);
    }
  }

  get place() {
    return `${this.editor.place.kind} ${this.editor.place.kind === "chosen" ? "" : this.editor.place.title}`;
  }

  // Keeps the file of the active document.
  keepFile() {
    const { file } = this.editor.state;
    if (file === null || file === this.last) return;
    this.last = file;
    const { place } = this;
    const others = filesKept().filter(each => each.path !== file || each.place !== place);
    try {
      localStorage.setItem(FILES, JSON.stringify([{ path: file, place }, ...others].slice(0, 4 * MOST)));
    } catch (fault) {
      console.warn("recent files are not kept", fault);
    }
  }

  // The files of the place that is open, without the active one; of chosen files those that are there.
  files() {
    const { place: { files, kind } } = this.editor;
    const isThere = path => kind !== "chosen" || files.has(path);
    return filesKept().filter(({ path, place }) => place === this.place && path !== this.editor.state.file && isThere(path)).slice(0, MOST).map(each => each.path);
  }

  // What a menu has of both.
  items() {
    const folders = this.folders.map(({ name, handle }) => ({ text: name, picture: "folder", keys: "recent folder", call: () => this.takeFolder(handle) }));
    const files = this.files().map(path => ({ text: path, picture: "open", keys: "recent map", call: () => this.documents.openPath(path) }));
    return [...files, ...(globalThis.showDirectoryPicker ? folders : [])];
  }
}
