// SPDX-License-Identifier: MIT OR Apache-2.0
// The properties in rows of the table: each with its name, its type, which is chosen there, and a field for its value; of a class a row for
// each of its members. What is set of one is set of each thing that the table is about.
import { ask, button, element } from "./dom.js";
import { fieldFor } from "./fields.js";
import { inheritedProperty } from "../core/inherited.js";
import { KINDS, TYPES } from "../core/kinds.js";
import { bytesTooMany, removalLine } from "../core/member_lines.js";
import { memberAt, membersIn, settingLine, textFrom, typeOfMember, valueFrom, withMember } from "../core/property_lines.js";
import { MAX_LINE } from "../../js/limits.js";
import { LONGEST_NAME, cutText } from "../files/members.js";
import { MIXED, showMixed } from "./shared_values.js";
import { rowOf } from "./table_rows.js";
import { whyNotSet } from "../core/unsupported_edits.js";

// What a value is that cannot be read as one of the type that is chosen, or that was not typed.
export const FIRST = { string: "", int: 0, float: 0, bool: false, color: "", file: "", object: 0 };
// How many letters are shown of a value that is longer than what can be set.
const MOST_SHOWN = 1024;
const CUT = `Only its first ${MOST_SHOWN.toLocaleString("en-US")} letters are shown: it is longer than what can be set here. It is kept as it is.`;
const tooLong = count => `too long by ${count.toLocaleString("en-US")} ${count === 1 ? "letter" : "letters"}`;
// The words of a member's type, which the map does not tell: its class stands in Tiled's project.
const OF_MEMBERS = { float: "number", bool: "yes or no", string: "text" };
const SETTABLE = Object.keys(TYPES).filter(type => type !== "class");

export class PropertyRows {
  // `panel` is the panel of the properties, which keeps rows and sends lines.
  constructor(panel) {
    // Of classes whether no line has room for them.
    Object.assign(this, { panel, bench: panel.bench, known: new WeakMap() });
  }

  rows(owner) {
    return (owner.data.properties ?? []).flatMap(property => this.rowsOf(owner, property).map(row => this.ofTemplate(owner, property, row)));
  }

  // What an object has of its template is grey, and is removed there.
  ofTemplate({ data }, { name }, row) {
    const isGrey = inheritedProperty(data, name) !== null;
    row.element.classList.toggle("usual", isGrey);
    for (const { box } of row.fields) box.classList.toggle("usual", isGrey);
    const remove = row.element.querySelector("td:last-child button");
    if (remove && isGrey !== (row.element.dataset.isGrey === "yes")) Object.assign(remove, { disabled: isGrey, title: isGrey ? "Its template has this" : "Remove this" });
    row.element.dataset.isGrey = isGrey ? "yes" : "no";
    return row;
  }

  rowsOf(owner, property) {
    const why = whyNotSet(property) || this.whyTooLong(property);
    if (why) return [this.barredRow(owner, property, why)];
    if (property.type !== "class") return [this.valueRow(owner, property)];
    return [this.classRow(owner, property), ...membersIn(property.value).map(member => this.memberRow(owner, property, member))];
  }

  // Why a value is not set, which no line has room for.
  whyTooLong({ name, type = "string", value }) {
    if (typeof value === "string" ? value.length <= MOST_SHOWN : typeof value !== "object") return "";
    if (typeof value === "string") return value.length > MAX_LINE || bytesTooMany(settingLine("map", { name, type, value })) ? CUT : "";
    // A class is the same one until the map has another value.
    if (!this.known.has(value)) this.known.set(value, bytesTooMany(settingLine("map", { name, type, value })) > 0);
    return this.known.get(value) ? CUT : "";
  }

  // ---- values
  valueRow(owner, { name, type = "string", value }) {
    const text = owner.mixed.has(`property ${name}`) ? "" : textFrom(value);
    return this.panel.kept(`${owner.word} ${type} ${name}`, [text], () => {
      const take = typed => this.set(name, whole => ({ ...whole, type, value: valueFrom(type, typed) }));
      const field = fieldFor(type, text, take, this.panel.around);
      Object.assign(field.input.dataset, { key: name, owner: owner.word });
      showMixed(field, owner, `property ${name}`);
      return { element: this.row(name, this.typeField(name, type), field.box), fields: [field] };
    });
  }

  // The type, which is chosen in its place. A value that cannot be read as one of that type is the first one of it.
  typeField(name, type) {
    const field = element("select", { className: "type", data: { typeOf: name }, title: "The type of its value" });
    field.append(...SETTABLE.map(each => element("option", { textContent: each, selected: each === type })));
    field.onchange = () => this.turn(name, field);
    return field;
  }

  async turn(name, field) {
    const type = field.value;
    const kind = TYPES[type];
    const valueOf = text => (kind.fault(kind.spelled(text)) ? FIRST[type] : valueFrom(type, kind.spelled(text)));
    const why = await this.set(name, ({ propertytype, ...whole }) => ({ ...whole, type, value: valueOf(textFrom(whole.value)) }), true);
    if (why) this.bench.say(why);
    this.panel.show();
    [...this.panel.body.querySelectorAll("select.type")].find(each => each.dataset.typeOf === name)?.focus({ preventScroll: true });
  }

  // Sets a property of each thing: `change` gives all of it as a file has it, from what is there of it. Gives null, or why it was refused.
  async set(name, change, isWhole = false) {
    const { editor } = this.bench;
    const known = ({ word, data }) => editor.propertiesOf(word).find(each => each.name === name) ?? inheritedProperty(data, name) ?? { name };
    const lineOf = each => settingLine(each.word, change(known(each)), isWhole);
    const bytes = Math.max(...this.panel.owner().all.map(each => bytesTooMany(lineOf(each))));
    return bytes ? tooLong(bytes) : this.panel.sendEach(lineOf, "Set Property");
  }

  // A new property. One of that name that is there is another one then.
  make(name, type, text) {
    const value = type === "class" ? { propertytype: text, value: {} } : { value: valueFrom(type, text) };
    return this.set(name, () => ({ name, type, ...value }));
  }

  // ---- classes
  // The head of a class: its name in Tiled's project, and a button that adds a member.
  classRow(owner, { name, propertytype = "" }) {
    return this.panel.kept(`${owner.word} class ${name} ${propertytype}`, [], () => {
      const words = element("span", { textContent: propertytype || "(no class)" });
      const add = button("+", "Add a member to this class", () => this.addMember(name), { className: "add-member" });
      return { element: this.row(name, "class", element("div", { className: "value" }, words, add)), fields: [] };
    });
  }

  memberRow(owner, { name }, { path, value }) {
    const type = typeOfMember(value);
    const title = path.join(" ");
    const values = owner.all.map(({ data }) => memberAt(data.properties.find(each => each.name === name)?.value, path));
    const isMixed = values.some(each => each !== values[0]);
    const text = isMixed ? "" : textFrom(value);
    if (type === null) return this.panel.kept(`${owner.word} member ${name} ${title} ${JSON.stringify(value)}`, [], () => this.otherMember(title, value));
    return this.panel.kept(`${owner.word} member ${name} ${title} ${type}`, [text], () => {
      const take = typed => this.set(name, whole => ({ ...whole, value: withMember(whole.value, path, valueFrom(type, typed)) }));
      const field = fieldFor(type, text, take, this.panel.around);
      Object.assign(field.input.dataset, { key: `${name}.${path.join(".")}`, owner: owner.word });
      if (field.input.type === "checkbox") field.input.indeterminate = isMixed;
      else field.input.placeholder = isMixed ? MIXED : "";
      const remove = button("×", "Take this member out: it has the value of its class then", () => this.removeMember(name, path));
      const row = rowOf(title, "", `${name}: ${title} (${OF_MEMBERS[type]})`, element("td", {}, field.box), element("td", {}, remove));
      row.classList.add("member");
      return { element: row, fields: [field] };
    });
  }

  otherMember(title, value) {
    const words = element("span", { className: "barred", textContent: `${cutText(JSON.stringify(value), MOST_SHOWN)} is set in Tiled.` });
    const row = rowOf(title, "", title, element("td", { colSpan: 2 }, words));
    row.classList.add("member");
    return { element: row, fields: [] };
  }

  async removeMember(name, path) {
    const why = await this.set(name, whole => ({ ...whole, value: withMember(whole.value, path, undefined) }));
    if (why) this.bench.say(why);
  }

  addMember(name) {
    const types = Object.values(OF_MEMBERS);
    const isType = { fault: text => (types.includes(text) ? "" : `one of: ${types.join(", ")}`), spelled: text => text };
    return ask(`A member of ${name}`, [
      { name: "member", label: "Name", kind: KINDS.text },
      { name: "type", label: "Value", value: types[0], choices: types, kind: isType },
    ], ["OK"], async ({ member, type }) => {
      const first = FIRST[Object.keys(OF_MEMBERS).find(each => OF_MEMBERS[each] === type)];
      const words = await this.set(name, whole => ({ ...whole, value: withMember(whole.value, [member], first) }));
      return words === null ? null : { words };
    });
  }

  // ---- rows
  // A property that no line sets: it is shown, with why.
  barredRow(owner, { name, type = "string", value }, why) {
    const whole = owner.mixed.has(`property ${name}`) ? "" : shownOf(value);
    const text = cutText(whole, MOST_SHOWN);
    return this.panel.kept(`${owner.word} ${type} ${why} ${text} ${name}`, [], () => {
      const rows = Math.min(8, text.split("\n").length);
      const input = element("textarea", { disabled: true, value: text, title: why, rows, data: { key: name, owner: owner.word } });
      const box = element("div", { className: "value" }, input, element("small", { className: "barred", textContent: why }));
      return { element: this.row(name, type, box), fields: [] };
    });
  }

  row(name, type, box) {
    // Of a longer name the page has its first letters.
    const isCut = name.length > LONGEST_NAME;
    const title = isCut ? `It has more than ${LONGEST_NAME} letters: Tiled removes it.` : "Remove this property";
    // The second press of a double click at '+' comes to where this button is then.
    const remove = button("×", title, event => event.detail < 2 && this.remove(name), { disabled: isCut });
    const row = rowOf(name, type, name, element("td", {}, box), element("td", {}, remove));
    row.dataset.property = name;
    return row;
  }

  async remove(name) {
    const why = await this.panel.sendEach(each => removalLine(each.word, name), "Remove Property");
    if (why) this.bench.say(why);
  }
}

// A value as it is seen: of a class its members, one below the other. Of one that is too long there is a part, longer than what is shown.
function shownOf(value) {
  if (typeof value !== "object" || value === null) return textFrom(value).slice(0, MOST_SHOWN + 1);
  return membersIn(value).slice(0, MOST_SHOWN).map(({ path, value: each }) => [...path, ""].join(": ") + String(each).slice(0, MOST_SHOWN + 1)).join("\n");
}
