// SPDX-License-Identifier: MIT OR Apache-2.0
// Small helpers for what stands on the page.

export const byId = id => document.getElementById(id);

// The rows that a list in a dialog has at most.
const MOST_ROWS = 500;

// An element with these properties and children. What begins with `on` is a listener, and `data` are its marks for scripts.
export function element(tag, properties = {}, ...children) {
  const made = document.createElement(tag);
  for (const [name, value] of Object.entries(properties)) {
    if (name === "data") Object.assign(made.dataset, value);
    else made[name] = value;
  }
  made.append(...children.filter(child => child !== null && child !== undefined));
  return made;
}

export function button(text, title, onclick, properties = {}) {
  return element("button", { type: "button", textContent: text, title, onclick, ...properties });
}

// Puts a text where another one stands: with the same one nothing is laid out anew.
export function putText(at, words) {
  if (at.textContent !== words) at.textContent = words;
}

// Has a button grey where something is not done now, with why beside what it does.
export function allow(at, words, why = "") {
  at.disabled = why !== "";
  at.title = why ? `${words}. ${why}` : words;
}

export const NO_MAP = "Open a map first";

// A listener that calls something where the key is Enter. (One that gives false would keep a letter out of its field.)
export function onEnter(call) {
  return event => {
    if (event.key === "Enter") call();
  };
}

export const isField = at => [HTMLInputElement, HTMLTextAreaElement, HTMLSelectElement].some(kind => at instanceof kind);

// Whether keys go into a field now.
export function isTyping() {
  const at = document.activeElement;
  return isField(at);
}

// A reader names a dialog by its head.
function nameDialog(dialog) {
  const head = dialog.querySelector("h2");
  if (!head) return;
  head.id = "dialog-head";
  dialog.setAttribute("aria-labelledby", head.id);
}

// Shows a dialog, and gives what its buttons return; "" where nothing was wanted.
export function shown(dialog) {
  document.body.append(dialog);
  nameDialog(dialog);
  dialog.showModal();
  dialog.querySelector("input:not([type=file], [type=checkbox])")?.select();
  return new Promise(resolve => {
    dialog.onclose = () => {
      dialog.remove();
      // Chromium gives the focus back to a field, but no keys, until it has it anew.
      const field = document.activeElement;
      field?.blur();
      field?.focus();
      resolve(dialog.returnValue);
    };
  });
}

// ---- fields that are refused
// Marks a field, and says why below it; without words the mark goes.
export function mark(input, words) {
  const fault = input.parentElement.querySelector(".fault");
  input.classList.toggle("wrong", words !== "");
  input.ariaInvalid = words === "" ? null : "true";
  input.title = words;
  if (fault) fault.textContent = words;
  else if (words !== "") input.parentElement.append(element("small", { className: "fault", role: "alert", textContent: words }));
  if (words !== "") input.parentElement.scrollIntoView({ block: "nearest" });
}

// ---- dialogs with fields
function fieldOf(field) {
  if (field.element) return field.element;
  if (field.presets) return presetsOf(field);
  const choices = field.choices?.map(choice => element("option", { value: choice }));
  const list = choices && element("datalist", { id: `choices-${field.name}` }, ...choices);
  const { name, type = "text", value = "", min = "" } = field;
  const input = element("input", { name, type, value, min, autocomplete: "off", spellcheck: false });
  const seen = field.list && listFor(input, field.list);
  input.oninput = () => {
    mark(input, "");
    seen?.narrow();
  };
  if (list) input.setAttribute("list", list.id);
  return element("label", {}, element("span", { textContent: field.label }), element("span", { className: "filled" }, input, seen?.box), list);
}

// Buttons that fill other fields: [text, the values of those by their names].
function presetsOf({ label, presets }) {
  const fill = (form, values) => Object.entries(values).forEach(([name, value]) => {
    form.elements[name].value = value;
    mark(form.elements[name], "");
  });
  const buttons = presets.map(([text, values]) => button(text, "", event => fill(event.target.form, values)));
  const row = element("div", { className: "presets" }, element("span", { textContent: label }), ...buttons);
  row.setAttribute("role", "group");
  return row;
}

// A list below a field, whose rows go into it by a click: those that have what is typed.
function listFor(input, rows) {
  const box = element("select", { size: 10, className: "rows", tabIndex: -1, ondblclick: () => input.form.requestSubmit() });
  box.onchange = () => {
    input.value = box.value;
    mark(input, "");
  };
  const narrow = () => {
    const typed = input.value.toLowerCase();
    const fitting = rows.filter(row => row.toLowerCase().includes(typed)).slice(0, MOST_ROWS);
    box.replaceChildren(...fitting.map(row => element("option", { value: row, textContent: row })));
  };
  narrow();
  if (!box.options.length) box.replaceChildren(...rows.slice(0, MOST_ROWS).map(row => element("option", { value: row, textContent: row })));
  box.value = input.value;
  return { box, narrow };
}

// An answer that destroys something. It never has the focus, and Enter does not give it.
export const destroying = text => ({ text, isDestroying: true });

// A dialog that asks for fields, and stays open while what was typed is refused.
class Question {
  constructor(title, fields, answers, take) {
    Object.assign(this, { fields, take });
    const all = answers.map(answer => (answer.isDestroying ? answer : { text: answer, isDestroying: false }));
    const safe = all.find(each => !each.isDestroying)?.text ?? "";
    this.form = element("form", { method: "dialog", noValidate: true }, element("h2", { textContent: title }), ...fields.map(fieldOf));
    this.dialog = element("dialog", {}, this.form);
    this.said = element("p", { className: "fault", role: "alert" });
    const buttons = all.map(({ text }) => element("button", { type: "submit", value: text, textContent: text }));
    const cancel = button("Cancel", "Esc", () => this.dialog.close(""));
    if (!fields.length) (buttons.find(each => each.value === safe) ?? cancel).autofocus = true;
    for (const field of fields) field.begin?.(this.form);
    this.form.append(this.said, element("div", { className: "answers" }, ...buttons, cancel));
    this.form.onsubmit = event => {
      event.preventDefault();
      this.answer(event.submitter?.value ?? safe);
    };
  }

  async ask(refusal) {
    const answered = shown(this.dialog);
    if (refusal) this.refuse(refusal);
    const answer = await answered;
    return answer ? this.typed(answer) : null;
  }

  // What was typed, as lines spell it.
  typed(answer) {
    const typed = Object.fromEntries(new FormData(this.form));
    for (const { name, kind } of this.fields) if (kind) typed[name] = kind.spelled(typed[name]);
    return { ...typed, answer };
  }

  async answer(answer) {
    if (this.isBusy) return;
    if (!answer) return this.dialog.close("");
    const typed = this.typed(answer);
    const wrong = this.fields.find(({ name, kind }) => kind?.fault(typed[name]));
    if (wrong) return this.refuse({ words: wrong.kind.fault(typed[wrong.name]), field: wrong.name });
    this.isBusy = true;
    this.dialog.dataset.busy = "yes";
    const refusal = await this.take(typed);
    this.isBusy = false;
    delete this.dialog.dataset.busy;
    return refusal ? this.refuse(refusal) : this.dialog.close(answer);
  }

  // Says why, and marks the field that it is about: the one that was named, or else the only one.
  refuse({ words, field = this.fields.length === 1 ? this.fields[0].name : null }) {
    const input = field && this.form.elements[field];
    this.said.textContent = input ? "" : words;
    if (!input) return;
    mark(input, words);
    input.focus();
    input.select();
  }
}

// Asks for fields, and gives what was typed by their names, with the answer that was clicked; null where nothing was wanted. A field is
// { name, label, value, kind }, with one of KINDS, which says what it takes, or an `element` of its own, for which `begin` is called with the
// form. An answer is a text, or a `destroying` one. `take` does what was
// asked for; where that is refused, it gives { words, field }: the dialog stays open, and marks the field. With a `refusal` it begins with one.
export function ask(title, fields, answers = ["OK"], take = () => null, refusal = null) {
  return new Question(title, fields, answers, take).ask(refusal);
}
