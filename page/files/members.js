// SPDX-License-Identifier: MIT OR Apache-2.0
// The members that the page reads of a map and of a tileset, each with its kind, as Tiled's JSON map format has them. All that the page
// knows of a file's members comes through these tables: one that is of another kind counts as not there, and is told.
import { partsOfColour } from "../view/tints.js";

// How many characters of a name, of a text and of all texts of a map are shown; how long a path may be; the largest size of a letter, and the
// largest side of a hexagon.
export const LONGEST_NAME = 200;
export const LONGEST_TEXT = 4096;
const MOST_LETTERS = 262_144;
const LONGEST_PATH = 4096;
export const LARGEST_LETTER = 4096;
const LARGEST_SIDE = 65_535;
const LARGEST_WHOLE = 0xffffffff;
const LARGEST_COUNT = 0x0fffffff;
// The largest place and length of which sums and products are drawn.
const LARGEST = 1e12;
// How many odd members are kept, so that they can be named.
const MOST_ODD = 100;

// Under this a record has the names of its members that are not there since they are of another kind.
export const ODD = Symbol("odd");

// A text that is too long to be measured, without its end.
export const cutText = (text, most) => (text.length <= most ? text : `${text.slice(0, most)}…`);

export const isRecord = value => value !== null && typeof value === "object" && !Array.isArray(value);

// The odd members of a file, in words: [a member and what it belongs to, what it must be]. `count` is the number of all. And how many
// letters of texts are still taken, and whether a text is cut.
export class OddMembers {
  constructor() {
    Object.assign(this, { count: 0, named: [], letters: MOST_LETTERS, isCut: false });
  }

  // A text as far as it is shown.
  cut(text) {
    const most = Math.min(LONGEST_TEXT, this.letters);
    this.letters -= Math.min(most, text.length);
    this.isCut ||= text.length > most;
    return cutText(text, most);
  }

  add(member, owner, words) {
    this.count++;
    if (this.named.length < MOST_ODD) this.named.push([`${member} of ${owner}`, words]);
  }
}

// ---- kinds: `words` say what a value must be, and `take(value, odd, where)` gives what the page has of it, or undefined where it is of
// another kind. What is odd inside of it is told to `odd`; `where` is what it belongs to.
const plain = (words, isSo) => ({ words, take: value => (isSo(value) ? value : undefined) });
const number = (words, least, most) => plain(words, value => Number.isFinite(value) && value >= least && value <= most);
const whole = (words, least, most) => plain(words, value => Number.isInteger(value) && value >= least && value <= most);
const oneOf = (...all) => plain(all.join(" or "), value => all.includes(value));

const BOOL = plain("true or false", value => typeof value === "boolean");
const NUMBER = plain("a number", Number.isFinite);
const PLACE = number("a number up to a million million", -LARGEST, LARGEST);
const LENGTH = number("a number from 0 to a million million", 0, LARGEST);
const WHOLE = whole("a whole number", 0, LARGEST_WHOLE);
const SIDE = whole("a whole number from 0 to 65,535", 0, LARGEST_SIDE);
const LETTER = whole("a whole number from 1 to 4,096", 1, LARGEST_LETTER);
const NAME = { words: "a text", take: value => (typeof value === "string" ? cutText(value, LONGEST_NAME) : undefined) };
const TEXT = { words: "a text", take: (value, odd) => (typeof value === "string" ? odd.cut(value) : undefined) };
const PATH = plain("a path", value => typeof value === "string" && value.length <= LONGEST_PATH);
const COLOUR = plain("a colour", value => typeof value === "string" && partsOfColour(value) !== null);
const ANY = plain("there", value => value !== undefined);
const LIST = plain("a list", Array.isArray);

const isPoint = value => isRecord(value) && PLACE.take(value.x) !== undefined && PLACE.take(value.y) !== undefined;

// Points stay as they are, since there may be millions.
const POINTS = {
  words: "a list of points",
  take(value, odd, where) {
    if (!Array.isArray(value) || value.every(isPoint)) return LIST.take(value);
    odd.add("a point", where, "two numbers, x and y");
    return value.filter(isPoint);
  },
};

// A record with these members.
function record(members) {
  const known = Object.assign(Object.create(null), members);
  return { words: "an object", take: (value, odd, where) => (isRecord(value) ? taken(known, value, odd, where) : undefined) };
}

function taken(known, value, odd, where) {
  const made = {};
  for (const name of Object.keys(value)) {
    const kind = known[name];
    if (!kind) continue;
    const member = kind.take(value[name], odd, kind.inner?.(name, where) ?? where);
    if (member !== undefined) made[name] = member;
    else {
      odd.add(name, where, kind.words);
      (made[ODD] ??= []).push(name);
    }
  }
  return made;
}

// A list of records, from which others are left out. `titleOf(record, where)` says what each is.
function listOf(kind, titleOf) {
  const take = (value, odd, where) => {
    if (!Array.isArray(value)) return undefined;
    const made = [];
    for (const each of value) {
      const found = kind.take(each, odd, isRecord(each) ? titleOf(each, where) : where);
      if (found !== undefined) made.push(found);
      else odd.add("a part", where, kind.words);
    }
    return made;
  };
  return { words: "a list", take };
}

// A kind inside of a record, which is told as a part of that.
const inside = kind => ({ ...kind, inner: (name, where) => `the ${name} of ${where}` });

// ---- the tables
const PROPERTY = record({ name: NAME, type: NAME, propertytype: NAME, value: ANY });

const PROPERTIES = inside(listOf(PROPERTY, (each, where) => where));

const OF_TEXT = record({
  text: TEXT, pixelsize: LETTER, fontfamily: NAME, color: COLOUR, wrap: BOOL, bold: BOOL, italic: BOOL, underline: BOOL, strikeout: BOOL,
  halign: oneOf("left", "center", "right", "justify"), valign: oneOf("top", "center", "bottom"),
});

export const OBJECT = record({
  id: WHOLE, name: NAME, type: NAME, class: NAME, x: PLACE, y: PLACE, width: LENGTH, height: LENGTH, rotation: NUMBER, visible: BOOL, gid: WHOLE,
  ellipse: BOOL, point: BOOL, polygon: inside(POINTS), polyline: inside(POINTS), text: inside(OF_TEXT), template: PATH, properties: PROPERTIES,
});

export const titleOfObject = object => `the object ${WHOLE.take(object.id) ?? "?"}`;

// The layers of a group stand there as they are: who goes through them reads each of them.
export const LAYER = record({
  id: WHOLE, name: NAME, type: oneOf("tilelayer", "objectgroup", "imagelayer", "group"), class: NAME, visible: BOOL, locked: BOOL,
  opacity: NUMBER, offsetx: NUMBER, offsety: NUMBER, tintcolor: COLOUR, parallaxx: NUMBER, parallaxy: NUMBER, mode: NAME, color: COLOUR,
  draworder: oneOf("topdown", "index"), objects: listOf(OBJECT, titleOfObject), image: PATH,
  transparentcolor: COLOUR, repeatx: BOOL, repeaty: BOOL, layers: LIST, properties: PROPERTIES,
});

export const titleOfLayer = layer => `the layer ${NAME.take(layer?.name) || "(no name)"}`;

// The tilesets stand there as they are, since one may be in a file of its own.
export const MAP = record({
  width: WHOLE, height: WHOLE, tilewidth: WHOLE, tileheight: WHOLE, nextlayerid: WHOLE, nextobjectid: WHOLE, layers: LIST, tilesets: LIST,
  orientation: oneOf("orthogonal", "isometric", "staggered", "hexagonal"), renderorder: oneOf("right-down", "right-up", "left-down", "left-up"),
  staggeraxis: oneOf("x", "y"), staggerindex: oneOf("odd", "even"), hexsidelength: SIDE, backgroundcolor: COLOUR, class: NAME,
  properties: PROPERTIES,
});

const TILE = record({ id: WHOLE, image: PATH, animation: inside(listOf(record({ tileid: WHOLE }), (each, where) => where)) });

// The numbers of which the places of tiles in an image are made.
const COUNT = whole("a whole number", 0, LARGEST_COUNT);
const TILE_SIDE = whole("a whole number from 1", 0, LARGEST_COUNT);
export const GRID = { tilewidth: TILE_SIDE, tileheight: TILE_SIDE, tilecount: COUNT, columns: COUNT, spacing: COUNT, margin: COUNT };

export const TILESET = record({
  ...GRID, name: NAME, image: PATH, transparentcolor: COLOUR, tileoffset: inside(record({ x: NUMBER, y: NUMBER })),
  objectalignment: oneOf("unspecified", "topleft", "top", "topright", "left", "center", "right", "bottomleft", "bottom", "bottomright"),
  tiles: listOf(TILE, (each, where) => `the tile ${WHOLE.take(each.id) ?? "?"} of ${where}`),
});
