// SPDX-License-Identifier: MIT OR Apache-2.0
// Makes a tileset of a picture, in the map or as a file beside it.
import { ask, element } from "./dom.js";
import { CutPreview } from "./cut_preview.js";
import { KINDS } from "../core/kinds.js";
import { said } from "../../js/json_values.js";
import { cutOf, membersOf, nameFor, whyNoFileName, writeTileset } from "../files/new_tilesets.js";
import { lastOf, pathFrom } from "../files/names.js";
import { thrownWords } from "../core/thrown_words.js";

const SIDES = [8, 16, 32, 48, 64];
const NUMBERS = ["side", "tall", "margin", "spacing"];
const IN_MAP = "in the map";
export const AS_FILE = "as a file beside the map";

// The numbers that are typed in a form; those that are none count as 0.
export const numbersIn = form => Object.fromEntries(NUMBERS.map(name => [name, Math.max(0, Math.floor(Number(form.elements[name].value)) || 0)]));

// The fields of how a picture is cut, with its preview.
export function cutFields(picture, [side, tall]) {
  return [
    { label: "Tile size", presets: SIDES.map(each => [`${each} × ${each}`, { side: each, tall: each }]) },
    { name: "side", label: "Width of a tile in pixels", value: side, kind: KINDS.side },
    { name: "tall", label: "Height of a tile in pixels", value: tall, kind: KINDS.side },
    { name: "margin", label: "Margin around all tiles", value: 0, kind: KINDS.size },
    { name: "spacing", label: "Spacing between tiles", value: 0, kind: KINDS.size },
    new CutPreview(picture, numbersIn),
  ];
}

// What was typed of a cut, as numbers.
export const cutIn = typed => ({ ...typed, ...Object.fromEntries(NUMBERS.map(name => [name, Number(typed[name])])) });

// Why a picture has no tile that is cut so; null where it has.
export function whyNoTile(picture, cut) {
  return cutOf(picture, cut).count ? null : { words: `No tile of ${cut.side} × ${cut.tall} pixels has room in this picture.`, field: "side" };
}

// Where the tileset goes: in the map, or where there is a folder as a file beside it.
export function whereField(place) {
  if (place.kind !== "folder") return [];
  const choices = [IN_MAP, AS_FILE].map(text => element("option", { value: text, textContent: text }));
  return [{ name: "where", element: element("label", {}, element("span", { textContent: "Where it is kept" }), element("select", { name: "where" }, ...choices)) }];
}

export class TilesetMaker {
  constructor(bench, pictures) {
    Object.assign(this, { bench, pictures, editor: bench.editor });
  }

  // Asks for a picture, where none is told, and for its cut, and adds the tileset. Gives its first id; null where there is none.
  async make(given = null) {
    if (!this.bench.map) return this.bench.say("Open a map first.");
    const picture = given ?? (await this.pictures.ask("A picture for a new tileset"));
    if (!picture) return null;
    const { map } = this.bench;
    let first = null;
    const fields = [
      { name: "name", label: "Name", value: nameFor(picture.path), kind: KINDS.text },
      ...cutFields(picture, [map.tileWidth, map.tileHeight]), ...whereField(this.editor.place),
    ];
    await ask(`A new tileset of ${lastOf(picture.path)}`, fields, ["OK"], async typed => {
      const refusal = whyNoTile(picture, cutIn(typed));
      if (refusal) return refusal;
      first = this.bench.carried.numbers.nextFirst();
      const { line, ...why } = await this.lineFor(picture, cutIn(typed), first);
      const refused = line ? await this.bench.attempt([line]) : why;
      if (refused) first = null;
      return refused;
    });
    return first;
  }

  // The line that adds the tileset: { line }, or why there is none: { words, field }. A file is written at once.
  async lineFor(picture, made, first) {
    const { folder, place } = this.editor;
    if (made.where !== AS_FILE) return { line: `tileset put ${said({ firstgid: first, ...membersOf(picture, made, folder) }, "a tileset")}` };
    const words = whyNoFileName(made.name);
    if (words) return { words, field: "name" };
    try {
      const path = await this.editor.during(writeTileset(place, folder, picture, made));
      if (!path) return { words: `The file ${made.name}.tsj is there already. Choose another name.`, field: "name" };
      return { line: `tileset add ${first} ${pathFrom(folder, path)}` };
    } catch (fault) {
      return { words: `The file was not written: ${thrownWords(fault)}.` };
    }
  }
}
