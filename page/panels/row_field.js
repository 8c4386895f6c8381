// SPDX-License-Identifier: MIT OR Apache-2.0
// A field in a row of a list, as for a name. Enter and leaving it take what was typed; what is refused stays, marked; Escape ends it.
import { element, mark } from "./dom.js";

export class RowField {
  // `take(text)` does what the text asks for, at once, and gives "", or why it was refused. `onEnd()` is called once, when the field is over.
  constructor(value, kind, take, onEnd) {
    Object.assign(this, { kind, take, onEnd, isTaking: false, isOver: false });
    this.input = element("input", { value, className: "row-field", ariaLabel: "name", autocomplete: "off", spellcheck: false });
    Object.assign(this.input, { oninput: () => mark(this.input, ""), onkeydown: event => this.key(event), onblur: () => this.left() });
  }

  begin() {
    this.input.focus();
    this.input.select();
  }

  key(event) {
    if (event.key !== "Enter" && event.key !== "Escape") return;
    event.preventDefault();
    if (event.key === "Enter") this.commit();
    else this.end();
  }

  // The window may be left, and the field have the keys again behind that.
  left() {
    if (document.activeElement !== this.input) this.commit();
  }

  // Where the list is made anew by what the text does, the field is left meanwhile.
  commit() {
    if (this.isOver || this.isTaking) return;
    this.isTaking = true;
    const text = this.kind.spelled(this.input.value);
    const fault = this.kind.fault(text) || this.take(text);
    this.isTaking = false;
    if (fault) mark(this.input, fault);
    else this.end();
  }

  end() {
    if (this.isOver) return;
    this.isOver = true;
    this.onEnd();
  }
}
