// SPDX-License-Identifier: MIT OR Apache-2.0
// The log: what was done, in words, beside the lines that were sent, each with its reply, by which it is marked; and a box for own ones,
// which is read for a history and completion.
import { byId, element } from "./dom.js";
import { isFollowing } from "../core/line_kinds.js";
import { LogWords } from "../core/log_words.js";
import { thrownWords } from "../core/thrown_words.js";

const SHOWN = 1000;
// The lines that have the name of a document, or of a file, as their word at a place.
const DOCUMENT_WORDS = { close: 1, discard: 1, use: 1 };
const FILE_WORDS = { open: 2, save: 1 };

export class LinePanel {
  // `names` tells what layers and objects are called.
  constructor(bench, names) {
    this.bench = bench;
    this.words = new LogWords(names);
    // The row of the last step, with the cells that its lines have named so far: { words, line, cells, gesture }.
    this.step = null;
    this.editor = bench.editor;
    this.box = byId("line");
    this.history = [];
    this.at = 0;
    this.box.onkeydown = event => this.key(event);
    this.box.oninput = () => this.showForms();
    byId("copy").onclick = () => this.copy();
    this.newLines = [];
    this.editor.addEventListener("lines", event => {
      // No more are listed than that, however long the panels wait.
      this.newLines = [...this.newLines, ...event.detail].slice(-SHOWN);
      if (!bench.isHeld) this.show();
    });
    bench.addEventListener("free", () => this.show());
  }

  show() {
    const lines = this.newLines.splice(0);
    if (!lines.length) return;
    const list = byId("lines");
    const isAtEnd = list.scrollTop + list.clientHeight >= list.scrollHeight - 30;
    list.append(...lines.map(line => this.row(line)));
    while (list.children.length > SHOWN) list.firstChild.remove();
    if (isAtEnd) list.scrollTop = list.scrollHeight;
  }

  row([, line, reply, why, cells, gesture]) {
    const words = this.wordsOf(line, reply, cells, gesture);
    const answer = [element("span", { className: "reply", textContent: reply ?? "" }), why ? element("span", { className: "why", textContent: why }) : null];
    const row = element("li", { title: why ?? "" }, words, element("code", { textContent: line }), ...answer);
    row.classList.toggle("refused", reply?.startsWith("no ") ?? false);
    row.classList.toggle("follows", isFollowing(line));
    return row;
  }

  // What a line has done. The cells of a line that follows are told where its step began.
  wordsOf(line, reply, cells, gesture) {
    const words = element("span", { className: "words" });
    const isDone = !reply?.startsWith("no ");
    if (isDone && isFollowing(line) && this.step) {
      this.step.cells += cells;
      this.step.words.textContent = this.step.words.title = this.words.of(this.step.line, this.step.cells, this.step.gesture);
      return words;
    }
    words.textContent = words.title = isDone ? this.words.of(line, cells, gesture) : "Not done";
    if (isDone && words.textContent) this.step = { words, line, cells, gesture };
    return words;
  }

  async key(event) {
    if (event.key === "Enter") await this.enter();
    else if (event.key === "ArrowUp" || event.key === "ArrowDown") this.turn(event.key === "ArrowUp" ? -1 : 1);
    else if (event.key === "Tab" && this.box.value) await this.complete();
    else if (event.key === "Escape") this.box.blur();
    else return;
    event.preventDefault();
  }

  async enter() {
    const line = this.box.value;
    if (!line) return;
    this.history = [...this.history.filter(each => each !== line), line];
    this.at = this.history.length;
    this.box.value = "";
    this.showForms();
    await this.bench.act([line], { isFree: true });
  }

  turn(by) {
    this.at = Math.max(0, Math.min(this.history.length, this.at + by));
    this.box.value = this.history[this.at] ?? "";
    this.showForms();
  }

  // What may stand at the last word of the box.
  async choices(words) {
    const { map, state, forms } = this.editor;
    const at = words.length - 1;
    if (at === 0) return Object.keys(forms ?? {});
    if (DOCUMENT_WORDS[words[0]] === at) return state.documents.map(each => each.name);
    if (FILE_WORDS[words[0]] === at) return this.editor.fileWords();
    const inForms = (forms?.[words[0]] ?? []).map(form => form.split(" ")[at] ?? "");
    if (inForms.includes("LAYER")) return (map?.layers ?? []).map(layer => String(layer.id));
    return inForms.flatMap(word => word.split("|")).filter(word => /^[a-z]/.test(word));
  }

  async complete() {
    const words = this.box.value.split(" ");
    const start = words[words.length - 1];
    const fitting = [...new Set(await this.choices(words))].filter(word => word.startsWith(start));
    if (!fitting.length) return;
    let common = fitting[0];
    while (!fitting.every(word => word.startsWith(common))) common = common.slice(0, -1);
    words[words.length - 1] = common;
    this.box.value = words.join(" ") + (fitting.length === 1 ? " " : "");
    byId("forms").textContent = fitting.length > 1 ? fitting.join("  ") : this.forms();
  }

  forms() {
    const word = this.box.value.split(" ")[0].replace("+", "");
    return (this.editor.forms?.[word] ?? []).join("   ");
  }

  showForms() {
    byId("forms").textContent = this.forms();
  }

  // Puts the session of the active document on the clipboard.
  async copy() {
    const session = this.editor.copied();
    try {
      await navigator.clipboard.writeText(session);
      this.bench.say(`${session.split("\n").length - 1} lines are on the clipboard.`);
    } catch (fault) {
      this.bench.say(`The clipboard was not written: ${thrownWords(fault)}.`);
    }
  }
}
