// SPDX-License-Identifier: MIT OR Apache-2.0
// Fields for values in a table. What is typed is taken by Enter, or as the field is left; what is refused stays in it, marked, until it is
// mended or Escape brings the old value back.
import { ask, button, element, mark } from "./dom.js";
import { pathsFrom } from "../files/folder_paths.js";
import { TYPES } from "../core/kinds.js";

// The height of a text grows with what stands in it, up to this many pixels.
const TALLEST = 160;
const NO_OBJECT = "0";

// A field in which something is typed. `take(text)` does what a new value asks for, and gives null, or the words of a refusal.
class TypedField {
  constructor(kind, value, take, input = element("input", { autocomplete: "off", spellcheck: false })) {
    Object.assign(this, { kind, take, input, isNative: false });
    this.box = element("div", { className: "value" }, input);
    this.put(value);
    input.onchange = () => this.commit();
    input.oninput = () => this.typed();
    input.onkeydown = event => this.key(event);
  }

  get isTyped() {
    return this.input.value !== this.value;
  }

  // Shows a value that the map has; but what was typed over the old one stays.
  update(value) {
    if (value === this.value) return;
    if (!this.isTyped) this.put(value);
    else this.value = this.input.defaultValue = value;
  }

  put(value) {
    this.value = this.input.defaultValue = value;
    if (this.input.value !== value) this.input.value = value;
    mark(this.input, "");
    this.fit();
  }

  typed() {
    mark(this.input, "");
    this.fit();
  }

  fit() {}

  key(event) {
    if (event.key === "Enter") {
      event.preventDefault();
      this.commit();
    } else if (event.key === "Escape") {
      event.preventDefault();
      this.restore();
    }
  }

  // Brings the old value back; where it is there, the field is left.
  restore() {
    if (this.isTyped) this.put(this.value);
    else this.input.blur();
  }

  async commit() {
    const text = this.kind.spelled(this.input.value);
    if (text === this.value) return this.put(text);
    const fault = this.kind.fault(text) || (await this.taken(text));
    if (fault) mark(this.input, fault);
    return fault;
  }

  // Takes a value at once, so that what is shown meanwhile is the new one.
  async taken(text) {
    const old = this.value;
    this.put(text);
    const words = await this.take(text);
    if (words === null) return "";
    this.value = this.input.defaultValue = old;
    return words;
  }
}

// A number: the arrow keys count it up and down.
export class NumberField extends TypedField {
  constructor(kind, value, take) {
    super(kind, value, take);
    this.input.inputMode = (kind.step ?? 1) < 1 ? "decimal" : "numeric";
  }

  key(event) {
    const by = { ArrowUp: 1, ArrowDown: -1 }[event.key];
    if (!by) return super.key(event);
    event.preventDefault();
    const text = this.kind.spelled(this.input.value);
    if (this.kind.fault(text)) return null;
    // Without the last digits, which no one has typed: 0.1 and 0.2 make 0.3.
    this.input.value = String(Number((Number(text) + by * (this.kind.step ?? 1)).toFixed(6)));
    return this.commit();
  }
}

// The fields of texts by their inputs. One that gets another width takes other rows, with the next frame: in this one it has its size.
const texts = new WeakMap();
const widths = new ResizeObserver(all => requestAnimationFrame(() => all.forEach(({ target, contentRect }) => texts.get(target).widen(contentRect.width))));

// A text: all of it is seen, on as many rows as it takes.
class TextField extends TypedField {
  constructor(kind, value, take) {
    super(kind, value, take, element("textarea", { rows: 1, spellcheck: false, autocomplete: "off" }));
    texts.set(this.input, this);
    widths.observe(this.input);
  }

  widen(width) {
    if (width > 0 && width !== this.width) this.fit();
    this.width = width;
  }

  fit() {
    const { input } = this;
    if (!input.isConnected) return requestAnimationFrame(() => input.isConnected && this.fit());
    // Without a bar of its own, which would take of its width.
    Object.assign(input.style, { height: "auto", overflowY: "hidden" });
    const height = input.scrollHeight + 2;
    Object.assign(input.style, { height: `${Math.min(TALLEST, height)}px`, overflowY: height > TALLEST ? "auto" : "hidden" });
    return null;
  }
}

// A text of several lines: Shift and Enter begin another one.
class LinesField extends TextField {
  key(event) {
    if (event.key !== "Enter" || !event.shiftKey) super.key(event);
  }
}

// A file: its path, and a button that lists those of the folder.
class FileField extends TextField {
  constructor(kind, value, take, { files }) {
    super(kind, value, take);
    this.box.append(button("…", "Choose a file of the folder", () => this.choose(files()), { className: "choose-file" }));
  }

  async choose({ place, folder, fits = () => true }) {
    const paths = (await pathsFrom(place, folder).catch(() => [])).filter(fits);
    const typed = await ask("A file of the folder", [{ name: "file", label: "File", value: this.input.value, kind: this.kind, list: paths }]);
    if (!typed) return;
    this.input.value = typed.file;
    await this.commit();
  }
}

// A colour: its digits, and a picker, which leaves the alpha as it is.
class ColourField extends TypedField {
  constructor(kind, value, take) {
    super(kind, value, take);
    const title = "Choose a colour; its alpha stays";
    this.swatch = element("input", { type: "color", title, onchange: () => this.pick() });
    this.box.append(this.swatch);
    this.fit();
  }

  // Where there is no colour, the picker shows white.
  fit() {
    const text = this.kind.spelled(this.input.value);
    if (this.swatch && !this.kind.fault(text)) this.swatch.value = text ? `#${text.slice(-6)}` : "#ffffff";
    this.swatch?.classList.toggle("none", text === "");
  }

  pick() {
    const text = this.kind.spelled(this.input.value);
    const alpha = text.length === 9 && !this.kind.fault(text) ? text.slice(1, 3) : "";
    this.input.value = `#${alpha}${this.swatch.value.slice(1)}`;
    this.commit();
  }
}

// A field with few values, of which one is chosen.
class ChosenField {
  constructor(value, take, input) {
    Object.assign(this, { value, take, input, isTyped: false });
    this.box = element("div", { className: "value" }, input);
    input.onchange = () => this.commit();
    // A handler that gives `false` would keep the key from the field.
    input.onkeydown = event => void (event.key === "Escape" && input.blur());
    this.put(value);
  }

  update(value) {
    if (value !== this.value) this.put(value);
  }

  async commit() {
    const old = this.value;
    this.value = this.chosen();
    const words = await this.take(this.value);
    if (words !== null) {
      this.put(old);
      mark(this.input, words);
    }
    return words ?? "";
  }
}

class BoolField extends ChosenField {
  constructor(value, take) {
    super(value, take, element("input", { type: "checkbox" }));
  }

  put(value) {
    this.value = value;
    this.input.checked = value === "true";
    mark(this.input, "");
  }

  chosen() {
    return String(this.input.checked);
  }
}

// One of some values, [value, its words] each.
class ChoiceField extends ChosenField {
  constructor(choices, value, take, title) {
    super(value, take, element("select", { title, ariaLabel: title }, ...choices.map(([each, words]) => element("option", { value: each, textContent: words }))));
  }

  put(value) {
    this.value = this.input.value = value;
    mark(this.input, "");
  }

  chosen() {
    return this.input.value;
  }
}

// An object of the map: the list is made as it is opened.
class ObjectField extends ChosenField {
  constructor(value, take, { map, pick }) {
    super(value, take, element("select", {}));
    this.map = map;
    this.box.append(button("⌖", "Pick the object by a click on the map", () => pick(id => this.pick(String(id))), { className: "pick-object" }));
    this.input.onfocus = () => this.list();
    this.input.onpointerdown = () => this.list();
    this.input.onblur = () => (this.isListed = false);
    this.put(value);
  }

  // An object may have another name by now.
  update(value) {
    if (value !== this.value || !this.isListed) this.put(value);
  }

  put(value) {
    this.value = value;
    if (!this.map) return;
    const found = this.map().object(Number(value));
    const words = found ? titleOf(found.object) : value === NO_OBJECT ? "(none)" : `${value} (no such object)`;
    this.input.replaceChildren(element("option", { value, textContent: words }));
    this.input.title = words;
    this.isListed = false;
    mark(this.input, "");
  }

  chosen() {
    return this.input.value;
  }

  // Takes an object that was picked on the map.
  async pick(id) {
    const old = this.value;
    if (id === old) return;
    this.put(id);
    const words = await this.take(id);
    if (words === null) return;
    this.put(old);
    mark(this.input, words);
  }

  list() {
    if (this.isListed) return;
    this.isListed = true;
    const { value } = this;
    const groups = this.map().layers.filter(layer => layer.data.objects?.length).reverse().map(layer => {
      const options = layer.data.objects.map(object => element("option", { value: object.id, textContent: titleOf(object) }));
      return element("optgroup", { label: layer.data.name || "(no name)" }, ...options);
    });
    const isKnown = value === NO_OBJECT || this.map().object(Number(value));
    const unknown = isKnown ? null : element("option", { value, textContent: `${value} (no such object)` });
    this.input.replaceChildren(...[element("option", { value: NO_OBJECT, textContent: "(none)" }), unknown, ...groups].filter(each => each));
    this.input.value = value;
  }
}

// An object in a list: its name, and its id.
export const titleOf = object => `${object.name || "(no name)"}  ${object.id}`;

// The field for the values of a type. `around` has calls: `map`; `pick`, which has an object picked on the map; and `files`, which gives their place and the folder of the map.
export function fieldFor(type, value, take, around, kind = TYPES[type]) {
  if (type === "bool") return new BoolField(value, take);
  if (type === "object") return new ObjectField(value, take, around);
  if (type === "color") return new ColourField(kind, value, take);
  if (type === "file") return new FileField(kind, value, take, around);
  if (type === "int" || type === "float") return new NumberField(kind, value, take);
  return type === "string" ? new LinesField(kind, value, take) : new TextField(kind, value, take);
}

export const choiceField = (choices, value, take, title) => new ChoiceField(choices, value, take, title);
export const colourField = (kind, value, take) => new ColourField(kind, value, take);
export const linesField = (kind, value, take) => new LinesField(kind, value, take);
export const textField = (kind, value, take) => new TextField(kind, value, take);
export const numberField = (kind, value, take) => new NumberField(kind, value, take);
