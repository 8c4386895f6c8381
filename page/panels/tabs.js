// SPDX-License-Identifier: MIT OR Apache-2.0
// The tabs of the open documents, of which the active one is always in sight, and a list of them all.
import { documentName } from "../../js/roskevad.js";
import { byId, element } from "./dom.js";
import { iconButton } from "./icons.js";
import { putRows } from "./list_rows.js";
import { showMenu } from "./menu.js";
import { folderOf, lastOf } from "../files/names.js";
import { NEVER_SAVED } from "./status_bar.js";

// What a document is called for the user: the name of its file, or its own name where it has none.
export const titleOf = ({ name, path }) => (path ? lastOf(path) : name);

// Whether a document is called in lines as its file is.
const isCalled = (name, path) => path === null || documentName(path) === name;

export class Tabs {
  constructor(bench, documents) {
    Object.assign(this, { bench, documents, editor: bench.editor, strip: byId("tabs"), shown: new Map(), active: null });
    this.all = iconButton("list", "All open maps", "All open maps", () => this.list(), { id: "list-tabs" });
    this.strip.after(this.all);
    this.strip.onwheel = event => (this.strip.scrollLeft += event.deltaX || event.deltaY);
    new ResizeObserver(() => this.reveal()).observe(this.strip);
  }

  // A tab that would show the same stays.
  show() {
    const { documents, active } = this.editor.state;
    const shown = new Map(documents.map(each => {
      const key = JSON.stringify([each.name, each.isActive, each.isClean, each.isWriting, each.path]);
      return [key, this.shown.get(key) ?? this.tab(each)];
    }));
    const isOther = this.active !== active || this.shown.size !== shown.size;
    Object.assign(this, { shown, active });
    putRows(this.strip, [...shown.values()]);
    this.all.classList.toggle("unused", documents.length < 2);
    this.all.disabled = documents.length < 2;
    if (isOther) this.reveal();
  }

  tab({ name, isActive, isClean, isWriting, path }) {
    const title = titleOf({ name, path });
    const saved = isWriting ? "is being saved" : path === null ? NEVER_SAVED : isClean ? "saved" : "not saved";
    const mark = element("span", { className: "mark", textContent: isClean ? "" : "•", title: saved });
    const close = iconButton("close", `Close ${title}`, `Close ${title}`, event => {
      event.stopPropagation();
      this.documents.close(name);
    }, { className: "close", tabIndex: -1 });
    const onclick = () => isActive || this.bench.act([`use ${name}`]);
    const shown = { className: "tab", title: `${path ?? "in no file yet"}${isCalled(name, path) ? "" : ` (called ${name} in the log)`}`, data: { document: name }, onclick };
    const tab = element("div", shown, mark, element("span", { className: "title", textContent: title }), close);
    tab.classList.toggle("on", isActive);
    tab.classList.toggle("unsaved", !isClean);
    return tab;
  }

  // Moves the strip, and nothing else, to where the active tab is seen whole.
  reveal() {
    const tab = this.strip.querySelector(".on");
    if (!tab) return;
    const [inside, around] = [tab.getBoundingClientRect(), this.strip.getBoundingClientRect()];
    this.strip.scrollLeft += Math.min(0, inside.left - around.left) || Math.max(0, Math.min(inside.left - around.left, inside.right - around.right));
  }

  list() {
    const items = this.editor.documents().map(({ name, isActive, isClean, path }) => ({
      text: `${titleOf({ name, path })}${isClean ? "" : " •"}`, keys: path === null ? NEVER_SAVED : folderOf(path), isOn: isActive, call: () => isActive || this.bench.act([`use ${name}`]),
    }));
    showMenu(items, this.all, "All open maps");
  }
}
