// SPDX-License-Identifier: MIT OR Apache-2.0
// What the text of an object has, in rows of the table: its words, its font, and how it lies in its box. What is as by default is not written,
// as Tiled does it.
import { choiceField, colourField, fieldFor, linesField, numberField, textField } from "./fields.js";
import { KINDS, orNothing, wholeKind } from "../core/kinds.js";
import { memberLine } from "../core/member_lines.js";
import { cellOf, rowOf } from "./table_rows.js";
import { LARGEST_LETTER } from "../files/members.js";

// What a text has where its file does not say it.
const USUAL = { text: "", fontfamily: "sans-serif", pixelsize: 16, color: "#000000", halign: "left", valign: "top" };
const LETTER = wholeKind(1, LARGEST_LETTER);
const COLOUR = orNothing(KINDS.colour);
const ACROSS = [["left", "left"], ["center", "centre"], ["right", "right"], ["justify", "justified"]];
const DOWN = [["top", "top"], ["center", "middle"], ["bottom", "bottom"]];

// What fields show of a member, and what a line says of what was typed.
const shownOf = (text, member) => String(text[member] ?? USUAL[member] ?? false);

function typedAs(member, typed) {
  if (member === "pixelsize") return Number(typed);
  return Object.hasOwn(USUAL, member) ? typed || USUAL[member] : typed === "true";
}

export class TextRows {
  // `panel` is the panel of the properties, which keeps rows and sends lines.
  constructor(panel) {
    Object.assign(this, { panel, bench: panel.bench });
  }

  rows(owner) {
    const mark = member => this.part(owner, member, member, take => fieldFor("bool", shownOf(owner.data.text, member), take));
    const choice = (member, choices, words) => this.part(owner, member, "", take => choiceField(choices, shownOf(owner.data.text, member), take, words));
    const family = take => textField(KINDS.label, shownOf(owner.data.text, "fontfamily"), take);
    const size = take => numberField(LETTER, shownOf(owner.data.text, "pixelsize"), take);
    const colour = take => colourField(COLOUR, shownOf(owner.data.text, "color"), take);
    return [
      this.wordsRow(owner),
      this.row(owner, "font", "Its family; a browser draws one that it does not have as another one", [this.part(owner, "fontfamily", "", family)]),
      this.row(owner, "letter size", "How high its letters are, in pixels", [this.part(owner, "pixelsize", "", size)]),
      this.row(owner, "colour", "", [this.part(owner, "color", "", colour)]),
      this.row(owner, "style", "", ["bold", "italic", "underline", "strikeout"].map(mark)),
      this.row(owner, "align", "Where it lies in its box", [choice("halign", ACROSS, "Across"), choice("valign", DOWN, "Up and down")]),
      this.row(owner, "wrap", "Whether its lines end at the edge of its box", [mark("wrap")]),
    ];
  }

  part({ data }, member, label, fieldWith) {
    return { member, label, value: shownOf(data.text, member), field: () => fieldWith(typed => this.take(member, typed)) };
  }

  row({ word }, name, title, parts) {
    return this.panel.kept(` ${word} text ${name}`, parts.map(part => part.value), () => {
      const fields = parts.map(part => part.field());
      parts.forEach((part, at) => Object.assign(fields[at].input.dataset, { key: ` text ${part.member}`, owner: word }));
      return { element: rowOf(name, "", title, cellOf(fields, parts.map(part => part.label))), fields };
    });
  }

  // The words of the text. The page may have a part of them.
  wordsRow({ word, data }) {
    const value = shownOf(data.text, "text");
    return this.panel.kept(` ${word} text`, [value], () => {
      const take = typed => (this.isWhole ? this.take("text", typed) : "this text is longer than what is shown here");
      const field = linesField(KINDS.words, value, take);
      Object.assign(field.input.dataset, { key: " text", owner: word });
      return { element: rowOf("text", "", "Shift+Enter begins another line", cellOf([field])), fields: [field] };
    });
  }

  // The text as the map has it, and as the page has it.
  get whole() {
    const { data } = this.panel.owner();
    return this.bench.editor.membersOf(data.id).text ?? data.text;
  }

  get isWhole() {
    return (this.whole.text ?? "") === (this.panel.owner().data.text.text ?? "");
  }

  // Gives a member another value. One as by default goes, but for the words themselves.
  take(member, typed) {
    const value = typedAs(member, typed);
    const { [member]: old, ...others } = this.whole;
    const isUsual = member !== "text" && value === (USUAL[member] ?? false);
    return this.panel.send(memberLine(this.panel.owner().word, "text", isUsual ? others : { ...this.whole, [member]: value }));
  }
}
