// SPDX-License-Identifier: MIT OR Apache-2.0
// Words for a refused line: what that means, and what to do; and of a line that is spelled wrong which of its words is at fault, and what is
// wanted in its place. The editor tells the word; the line is read for the forms that begin as it does.
import { FORMS, formsOf } from "../../js/roskevad.js";
import { isOfMap, wordsOfFault } from "./map_refusals.js";

const LONGEST_SHOWN = 40;
// How many forms are shown behind a word at fault: of all commands, and of those that a line has begun with.
const MOST_COMMANDS = 6;
const MOST_FORMS = 3;
// What each refusal means, and what to do, in words for the hand.
const WORDS = {
  1: "The line is too long: cut it into shorter ones.",
  2: "That is no text in UTF-8.",
  3: "There is no such line.",
  4: "That line is not as it has to be.",
  10: "Open a map first.",
  11: "A map that is open has this name already: choose another one.",
  12: "No map of that name is open.",
  13: "It has changes that are not saved: save it, or discard it.",
  20: "A macro is open: end it first, by 'End macro'.",
  21: "There is nothing to undo.",
  22: "There is nothing to redo.",
  23: "No macro is open.",
  24: "Macros stand in one another as deep as they can: end one first.",
  25: "That can be set before the first step alone.",
  30: "That layer is not there any more: choose another one.",
  31: "That layer has other things: tiles go on a tile layer, and objects on an object layer.",
  32: "This is outside the map.",
  33: "No tileset of this map has that tile.",
  34: "That object is not there any more.",
  35: "It has no property of that name any more.",
  36: "That tileset is not in this map any more.",
  37: "The map has tiles of this tileset, in cells or as objects: replace them or empty these first.",
  38: "The number of its first tile is taken, or another tileset begins behind it: choose a larger one.",
  39: "A size, a place or a number is too small or too large.",
  40: "There are as many as there can be: remove some first.",
  41: "Another field of this table changes that.",
  42: "It has nothing of that name any more.",
  50: "That file is not there.",
  51: "The file cannot be read or written.",
  90: "There is not memory enough for that.",
};
const cut = text => (text.length <= LONGEST_SHOWN ? text : `${text.slice(0, LONGEST_SHOWN)}..`);

// Whether a word of a line, which is what a form has there, is that of this form.
const isOfForm = (own, word) => own === "||" || /^[A-Z]/.test(own) || own.split("|").includes(word);

// The forms whose front is that of a line, so many words long.
function formsFrom(line, count) {
  const words = line.split(" ").slice(0, count);
  const fits = form => form.split(" ").slice(0, count).every((own, at) => isOfForm(own, words[at]));
  return [...FORMS.values()].flat().filter(form => form.split(" ").length >= count && fits(form));
}

// What is wrong with a word, as the reader of lines tells it.
function wrongWith({ place, word, text }, line) {
  if (word === null || place > line.split(" ").length) return `W${text.slice(1)}.`;
  if (word === "" && place > 1) return `Word ${place} is empty: one space stands between two words, and none at the end.`;
  return `Word ${place}, '${cut(word)}', ${text.slice(`word ${place} `.length)}.`;
}

// Why a line is refused that is spelled wrong: by the word at fault, or else by the forms that it may have. null of any other.
export function whyOf(refusal, line) {
  if (refusal?.wordAtFault) return wordsOfWord(refusal.wordAtFault, line);
  return refusal?.forms?.length ? ["It is to have one of these forms.", ...refusal.forms].join("\n") : null;
}

// Says at which word a line is refused, what it is to be, and in which forms a line may go on there.
function wordsOfWord(fault, line) {
  if (line.startsWith(" ")) return "The line begins with a space.";
  const forms = fault.place === 1 ? formsOf(line).slice(0, MOST_COMMANDS) : formsFrom(line, fault.place - 1).slice(0, MOST_FORMS);
  return [wrongWith(fault, line), ...forms].join("\n");
}

// All that is said of lines that were refused: why, and what to do. A map that is refused has both in its reason.
export function saidOf({ refusal, why, barred }) {
  if (barred) return barred;
  const { code, words } = refusal;
  if (isOfMap(code)) return why ?? wordsOfFault({ code });
  if (code === 50 && why) return `${why}: there is no such file.`;
  if (code === 51 && why) return /[.?!]$/.test(why) ? why : `${why}.`;
  return [WORDS[code] ?? `${words}.`, why].filter(Boolean).join(" ");
}
