// SPDX-License-Identifier: MIT OR Apache-2.0
// The dialog for a new map. What it makes is a map without steps: by the line `new` where that says all of it, and else as a text that is opened.
import { ask, element, mark } from "./dom.js";
import { AS_FILE, cutIn, whyNoTile } from "./tileset_maker.js";
import { KINDS } from "../core/kinds.js";
import { MAX_CELLS } from "../../js/limits.js";
import { ORIENTATIONS, newMap } from "../core/new_maps.js";
import { TilesField } from "./tiles_field.js";
import { grouped } from "../files/image_files.js";
import { isPictureName, membersOf, nameFor, writeTileset } from "../files/new_tilesets.js";
import { freeName } from "../files/names.js";
import { saidOf } from "../core/refusals.js";
import { thrownWords } from "../core/thrown_words.js";

// Sizes of a new map, in cells, and of its tiles, in pixels.
const SIZES = [["Room 20 × 15", 20, 15], ["Screen 40 × 30", 40, 30], ["World 100 × 100", 100, 100]];
const SIDES = [8, 16, 32, 64];

// Why a map has too many cells for its columns and rows; "" where it has not.
export function whyTooMany(width, height) {
  const count = width * height;
  return count > MAX_CELLS ? `A map has at most ${grouped(MAX_CELLS)} cells: ${grouped(width)} columns and ${grouped(height)} rows make ${grouped(count)}.` : "";
}

const choiceField = (name, label, choices) => (
  { name, element: element("label", {}, element("span", { textContent: label }), element("select", { name }, ...choices.map(each => element("option", { value: each, textContent: each })))) }
);

const checkField = (name, label) => ({ name, element: element("label", {}, element("span", { textContent: label }), element("input", { type: "checkbox", name, value: "yes" })) });

export class NewMap {
  // `choice` asks for pictures of this machine.
  constructor(bench, choice) {
    Object.assign(this, { bench, choice, editor: bench.editor });
  }

  // Asks for a new map. `path` names the tileset or the picture that is proposed.
  async make(path = null) {
    const { place } = this.editor;
    const names = (await this.editor.during(place.names().catch(() => []))).map(each => each.path);
    const tilesets = (await this.editor.during(place.tilesets().catch(() => []))).map(each => each.path);
    const pictures = names.filter(isPictureName);
    const tiles = new TilesField(place, tilesets, pictures, path ?? this.proposed(tilesets, pictures), this.choice);
    await ask("A new map", this.fields(tiles, names), ["OK"], async typed => {
      await tiles.ready;
      return this.made(typed, tiles, names);
    });
  }

  // The tileset of the map that is open, or else the first one that is there, or the first picture.
  proposed(tilesets, pictures) {
    const own = this.bench.map?.data.tilesets.find(set => tilesets.includes(set.source))?.source;
    return own ?? tilesets[0] ?? pictures[0] ?? "";
  }

  fields(tiles, names) {
    const name = freeName("map", made => this.whyTaken(made, names) !== "");
    // A name that is taken is told at once.
    const begin = form => form.elements.name.addEventListener("input", ({ target }) => mark(target, this.whyTaken(target.value, names)));
    return [
      { name: "name", label: "Name", value: name, kind: KINDS.document, begin },
      tiles,
      { label: "Size", presets: SIZES.map(([text, width, height]) => [text, { width, height }]) },
      { name: "width", label: "Columns", value: 40, kind: KINDS.cells },
      { name: "height", label: "Rows", value: 30, kind: KINDS.cells },
      { label: "Tile size", presets: SIDES.map(side => [`${side} × ${side}`, { side, tall: side }]) },
      { name: "side", label: "Width of a tile in pixels", value: 16, kind: KINDS.side },
      { name: "tall", label: "Height of a tile in pixels", value: 16, kind: KINDS.side },
      choiceField("orientation", "Orientation", ORIENTATIONS),
      checkField("infinite", "Infinite: it grows where it is drawn on"),
    ];
  }

  // Why a name is taken: a map would be saved under it. "" where it is free.
  whyTaken(name, names) {
    if (this.editor.openDocuments.byName.has(name)) return "A map that is open has this name already: choose another one.";
    return names.includes(`${name}.tmj`) ? `The file ${name}.tmj is there already. Choose another name.` : "";
  }

  // Makes the map for the dialog. Gives null, or why there is none.
  async made(typed, tiles, names) {
    const [width, height] = [Number(typed.width), Number(typed.height)];
    const taken = this.whyTaken(typed.name, names);
    if (taken) return { words: taken, field: "name" };
    const words = whyTooMany(width, height) || tiles.words.textContent;
    if (words) return { words };
    const { found } = tiles;
    const { name, orientation, infinite = "" } = typed;
    if (found && !found.picture && orientation === ORIENTATIONS[0] && !infinite) return this.bench.attempt([`new ${name} ${width} ${height} ${typed.side} ${typed.tall} ${found.path}`]);
    const { tilesets, ...why } = await this.tilesetsOf(found, typed);
    if (!tilesets) return why;
    return this.open(name, { width, height, side: Number(typed.side), tall: Number(typed.tall), orientation, isInfinite: infinite !== "", tilesets });
  }

  async open(name, given) {
    const done = await this.editor.openMade(name, newMap(given));
    return done.isAccepted ? null : { words: saidOf(done) };
  }

  // The tilesets of the map: { tilesets }, or why there are none. The map stands in the folder itself.
  async tilesetsOf(found, typed) {
    if (!found) return { tilesets: [] };
    if (!found.picture) return { tilesets: [{ firstgid: 1, source: found.path }] };
    const made = { ...cutIn(typed), name: nameFor(found.path) };
    const refusal = whyNoTile(found.picture, made);
    if (refusal) return refusal;
    if (made.where !== AS_FILE) return { tilesets: [{ firstgid: 1, ...membersOf(found.picture, made, "") }] };
    try {
      const path = await this.editor.during(writeTileset(this.editor.place, "", found.picture, made));
      return path ? { tilesets: [{ firstgid: 1, source: path }] } : { words: `The file ${made.name}.tsj is there already: it stands under 'Its tiles'.` };
    } catch (fault) {
      return { words: `The file of the tileset was not written: ${thrownWords(fault)}.` };
    }
  }
}
