// SPDX-License-Identifier: MIT OR Apache-2.0
// Plays a session: lines from the clipboard or from a file. They are read before they are played: whether all are edits, and so one step,
// and which files they save and open.
import { ask, button, byId, element, shown } from "../panels/dom.js";
import { pause } from "./replies.js";
import { isEdit, isQuiet } from "./line_kinds.js";
import { saidOf } from "./refusals.js";
import { thrownWords } from "./thrown_words.js";

const MACRO = "Session";
const SAVE = /^save (\S+)$/;
const OPEN = /^open \S+ (\S+)$/;
// How many lines are looked through before the page goes on with other things, and how many characters of a refused line are said.
const MOST_READ = 10_000;
const LONGEST_LINE = 80;

export class Player {
  constructor(bench) {
    this.bench = bench;
    this.editor = bench.editor;
    byId("play").onclick = () => this.ask();
  }

  // Shows the lines that are to be played, to be pasted, read from the clipboard or from a file.
  async ask() {
    const text = element("textarea", { name: "session", rows: 12, spellcheck: false, placeholder: "session lines, one below the other" });
    // Lines that were refused are there to be mended.
    text.value = this.refused ?? "";
    const read = async () => (text.value = await input.files[0].text());
    const input = element("input", { type: "file", hidden: true, id: "session-file", onchange: read });
    const paste = async () => {
      try {
        text.value = await navigator.clipboard.readText();
      } catch (fault) {
        this.bench.say(`The clipboard was not read: ${thrownWords(fault)}. Paste the lines by Ctrl+V.`);
      }
    };
    const row = element("div", { className: "answers" },
      button("From the clipboard", "", paste), button("From a file", "", () => input.click()), input,
      element("button", { type: "submit", value: "Play", textContent: "Play" }), button("Cancel", "Esc", () => dialog.close("")));
    const form = element("form", { method: "dialog" }, element("h2", { textContent: "Play a session" }), text, row);
    const dialog = element("dialog", { id: "session" }, form);
    if (await shown(dialog)) await this.play(text.value);
  }

  // Plays lines: as one macro where all are edits of the active document, and else one by one, up to the first that is refused. They are
  // played in parts, between which it may be stopped.
  async play(text) {
    const session = await this.editor.during(read(text));
    const { lines } = session;
    if (!lines.length || !(await this.mayPlay(session))) return;
    await this.editor.free();
    const isMacro = this.editor.openDocuments.active !== null && this.editor.stand().depth === 0 && session.areEdits;
    const progress = new Progress(this.bench, lines.length);
    const playing = isMacro ? this.asMacro(lines, progress) : this.oneByOne(lines, progress);
    const done = await this.editor.during(playing.finally(() => progress.end()));
    this.refused = done.isAccepted ? null : text;
    this.bench.say(done.isAccepted ? wordsOfPlayed(lines.length, done, isMacro) : wordsOfRefused(lines, done));
  }

  // Asks where the lines write files, or open one that is here as it was downloaded last. Gives whether they are played.
  async mayPlay(session) {
    const [saved, opening] = [session.saved, session.opened].map(words => [...words].map(word => this.editor.names.pathOf(word)));
    const opened = opening.filter(path => this.editor.place.files?.get(path)?.isSaved);
    const bytes = path => this.editor.place.files.get(path).bytes.length.toLocaleString("en");
    const words = opened.map(path => `It opens ${path} as this window has saved it last: ${bytes(path)} bytes, which were a download.`);
    if (saved.length) words.unshift(`This session saves ${saved.join(", ")}.`);
    return !words.length || (await ask(`${words.join(" ").replace(/^It/, "This session")} Play it?`, [], ["Play it"])) !== null;
  }

  // Plays lines as one step; where one is refused there is none. Gives how many were done, and whether `isBack`: nothing is changed.
  async asMacro(lines, progress) {
    const begun = this.editor.doLines([`begin ${MACRO}`]);
    if (!begun.isAccepted) return { ...begun, count: 0, isBack: true };
    const done = await this.oneByOne(lines, progress);
    const ended = this.editor.doLines(done.isAccepted ? ["end"] : ["end", "undo"]);
    return { ...done, isBack: !done.isAccepted && ended.isAccepted };
  }

  oneByOne(lines, progress) {
    return this.editor.send(lines, { goOn: count => progress.goesOn(count) });
  }
}

// The lines of a text, without those that are quiet; whether all are edits; and the words of the files that they save and open, each once.
// The page goes on meanwhile.
async function read(text) {
  const session = { lines: [], areEdits: true, saved: new Set(), opened: new Set() };
  for (let at = 0; at < text.length;) {
    for (let count = 0; count < MOST_READ && at < text.length; count++) {
      const found = text.indexOf("\n", at);
      const end = found < 0 ? text.length : found;
      take(session, text.slice(at, text[end - 1] === "\r" && end > at ? end - 1 : end));
      at = end + 1;
    }
    if (at < text.length) await pause();
  }
  return session;
}

function take(session, line) {
  if (isQuiet(line)) return;
  session.lines.push(line);
  session.areEdits &&= isEdit(line);
  const [saved, opened] = [SAVE, OPEN].map(form => form.exec(line)?.[1]);
  if (saved) session.saved.add(saved);
  if (opened) session.opened.add(opened);
}

const grouped = number => number.toLocaleString("en-US");

// What is said of lines of which none was refused: all of them, or those before a stop.
function wordsOfPlayed(all, { count }, isMacro) {
  const words = count < all ? `Stopped after ${grouped(count)} of ${grouped(all)} lines` : `${grouped(all)} lines were played`;
  return `${words}${isMacro ? ", as one step" : ""}.`;
}

// What is said where a line was refused, or could not be done.
function wordsOfRefused(lines, done) {
  const at = done.barred ? done.count : Math.max(0, done.count - 1);
  const line = `Line ${grouped(at + 1)} of ${grouped(lines.length)}, '${lines[at].slice(0, LONGEST_LINE)}'`;
  return `${line}: ${saidOf(done)}${done.isBack ? "\nNothing is changed." : ""}`;
}

// Shows how far lines are played, over a page that takes nothing else meanwhile, with a way to stop. The panels wait until then.
class Progress {
  constructor(bench, all) {
    Object.assign(this, { bench, all, isStopped: false });
    bench.isHeld = true;
    this.bar = element("progress", { max: all, ariaLabel: "lines that are done" });
    this.words = element("p");
    const stop = button("Stop", "Esc", () => this.stop(), { autofocus: true });
    const parts = [element("h2", { textContent: "Playing a session" }), this.words, this.bar, element("div", { className: "answers" }, stop)];
    const oncancel = event => {
      event.preventDefault();
      this.stop();
    };
    this.dialog = element("dialog", { id: "playing", data: { busy: "yes" }, oncancel }, ...parts);
  }

  stop() {
    this.isStopped = true;
  }

  // Shows how many lines are done, and tells whether the others follow.
  goesOn(count) {
    if (!this.dialog.isConnected) shown(this.dialog);
    this.bar.value = count;
    this.words.textContent = `${grouped(count)} of ${grouped(this.all)} lines`;
    return !this.isStopped;
  }

  end() {
    if (this.dialog.isConnected) this.dialog.close("");
    this.bench.isHeld = false;
    this.bench.tell("free");
  }
}
