// SPDX-License-Identifier: MIT OR Apache-2.0
// Files of the folder to choose one from, each with its size and with words of what is in it, which are found when its row is first seen.
import { button, element, shown } from "../panels/dom.js";
import { thrownWords } from "../core/thrown_words.js";

// The largest file that is looked into before it is chosen.
const LARGEST_SEEN = 16 * 1024 * 1024;
const UNITS = ["bytes", "kB", "MB"];

// A size in words: 940 bytes, 28 kB, 1.4 MB.
export function sizeOf(bytes) {
  const unit = bytes < 1000 ? 0 : bytes < 1_000_000 ? 1 : 2;
  const number = bytes / 1000 ** unit;
  return `${unit && number < 10 ? number.toFixed(1) : Math.round(number)} ${UNITS[unit]}`;
}

export class FileList {
  // `files` are listed by a place: [{ path, size }]. `known` has words for some paths. `look(path)` gives of another one the words, and
  // whether it is refused: { words, isRefused }. `fields` are asked for below the list, each an element with a name.
  constructor(title, files, { known = new Map(), look, none, fields = [] }) {
    Object.assign(this, { title, files, known, look, fields, chosen: null, waiting: [], isEnded: false });
    this.rows = new Map(files.map(each => [each.path, this.row(each)]));
    this.list = element("ul", { id: "file-list" }, ...this.rows.values());
    this.field = element("input", { name: "file", autocomplete: "off", spellcheck: false, placeholder: "a part of its name" });
    this.none = element("p", { id: "no-files", textContent: files.length ? "No file has that in its name." : none });
    this.field.oninput = () => this.sift();
    this.field.onkeydown = event => this.key(event);
    this.list.onclick = event => this.choose(event.target.closest("li")?.dataset.path ?? null);
    this.list.ondblclick = event => event.target.closest("li") && this.dialog.close("OK");
  }

  row({ path, size }) {
    const words = this.known.get(path) ?? (size > LARGEST_SEEN ? "too large to look into here" : "");
    return element("li", { data: { path } }, element("span", { className: "name", textContent: path, title: path }),
      element("span", { className: "details", textContent: words }), element("span", { className: "size", textContent: sizeOf(size) }));
  }

  // Shows the list, and gives the path that was chosen; null where none was.
  async ask() {
    const answers = element("div", { className: "answers" }, element("button", { type: "submit", value: "OK", textContent: "OK" }),
      button("Cancel", "Esc", () => this.dialog.close("")));
    const parts = [element("h2", { textContent: this.title }), this.field, this.list, this.none, ...this.fields, answers];
    this.dialog = element("dialog", { id: "choose-file" }, element("form", { method: "dialog" }, ...parts));
    const seen = new IntersectionObserver(entries => entries.forEach(each => each.isIntersecting && this.see(each.target, seen)), { root: this.list });
    for (const { path, size } of this.files) if (!this.known.has(path) && size <= LARGEST_SEEN) seen.observe(this.rows.get(path));
    this.sift();
    const answer = await shown(this.dialog);
    seen.disconnect();
    this.isEnded = true;
    return answer ? this.path() : null;
  }

  // What was typed where it is a path, and else the row that is chosen.
  path() {
    const typed = this.field.value.trim();
    return this.rows.has(typed) ? typed : this.chosen ?? (typed || null);
  }

  // ---- what is in the files
  // A row is seen for the first time. One file is looked into behind the other.
  see(row, seen) {
    seen.unobserve(row);
    this.waiting.push(row);
    if (this.waiting.length === 1) this.lookInto();
  }

  async lookInto() {
    while (this.waiting.length && !this.isEnded) {
      const [row] = this.waiting;
      const { words, isRefused } = await this.look(row.dataset.path).catch(fault => ({ words: thrownWords(fault), isRefused: true }));
      const details = row.querySelector(".details");
      details.textContent = details.title = words;
      row.classList.toggle("refused", isRefused);
      await new Promise(done => setTimeout(done));
      this.waiting.shift();
    }
  }

  // ---- the hand
  // Lists the files that have in their paths what was typed.
  sift() {
    const typed = this.field.value.trim().toLowerCase();
    for (const [path, row] of this.rows) row.hidden = !path.toLowerCase().includes(typed);
    const listed = this.listed();
    this.none.hidden = listed.length > 0;
    if (!listed.includes(this.chosen)) this.choose(listed[0] ?? null);
  }

  listed() {
    return [...this.rows].filter(([, row]) => !row.hidden).map(([path]) => path);
  }

  choose(path) {
    this.rows.get(this.chosen)?.classList.remove("now");
    this.chosen = path;
    this.rows.get(path)?.classList.add("now");
  }

  key(event) {
    const by = { ArrowDown: 1, ArrowUp: -1 }[event.key];
    if (!by) return;
    event.preventDefault();
    const paths = this.listed();
    const at = paths.indexOf(this.chosen) + by;
    this.choose(paths[Math.max(0, Math.min(paths.length - 1, at))] ?? null);
    this.rows.get(this.chosen)?.scrollIntoView({ block: "nearest" });
  }
}
