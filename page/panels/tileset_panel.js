// SPDX-License-Identifier: MIT OR Apache-2.0
// The tilesets of the map: which one the palette shows, at what scale; one of the folder is added, or one is removed.
import { NO_MAP, allow, byId, element } from "./dom.js";
import { iconButton } from "./icons.js";
import { FileList } from "../files/file_list.js";
import { pathFrom } from "../files/names.js";
import { memberLine, memberRemoval } from "../core/member_lines.js";
import { thrownWords } from "../core/thrown_words.js";
import { endNotice, notice } from "./notice_bars.js";
import { wordsOfTileset } from "../files/tileset_files.js";
import { TilesetMaker } from "./tileset_maker.js";
import { named } from "../tools/carried_tiles.js";

const ABOUT = "wrong tilesets";
// How many wrong tilesets are named, and how long a name is then.
const MOST_SAID = 3;
const LONGEST_NAME = 60;
const REPLACES = "Put a tileset of the folder in the place of this one: its tiles keep their places";
const NONE_HERE = "There is no tileset here: a .tsx or .tsj file, in the folder or among the chosen files.";

export class TilesetPanel {
  // `pictures` asks for a picture.
  constructor(bench, tilesets, palette, pictures) {
    Object.assign(this, { bench, tilesets, palette, editor: bench.editor, uses: palette.uses, maker: new TilesetMaker(bench, pictures), replaced: null });
    byId("tileset-actions").append(
      iconButton("minus", "Smaller tiles", "Smaller tiles: Ctrl and the wheel", () => palette.zoom(-1), { id: "palette-smaller" }),
      iconButton("plus", "Larger tiles", "Larger tiles: Ctrl and the wheel", () => palette.zoom(1), { id: "palette-larger" }),
      iconButton("newTileset", "New tileset of a picture", "", () => this.make(), { id: "new-tileset" }),
      iconButton("files", "Add a tileset", "Add a tileset of the folder to the map", () => this.add(), { id: "add-tileset" }),
      iconButton("replace", "Replace this tileset", REPLACES, () => this.replace(), { id: "replace-tileset" }),
      iconButton("remove", "Remove this tileset", "Remove this tileset from the map, where nothing uses it", () => this.remove(), { id: "remove-tileset" }),
    );
    byId("tilesets").onchange = event => {
      palette.choose(Number(event.target.value));
      event.target.blur();
    };
  }

  // Shows the tilesets of another map.
  show() {
    const sets = this.tilesets.all;
    const nameOf = set => `${set.name}${set.image ? "" : " (no image)"}`;
    byId("tilesets").replaceChildren(...sets.map(set => element("option", { value: set.first, textContent: nameOf(set), title: set.source ?? "in the map" })));
    if (sets.length && !sets.some(set => set.first === this.palette.first)) this.palette.first = sets[0].first;
    byId("tilesets").value = String(this.palette.first);
    this.palette.show();
    this.showButtons();
    this.showWrong();
    if (this.replaced) this.sayTooFew(this.replaced);
  }

  showButtons() {
    const why = this.bench.map ? "" : NO_MAP;
    allow(byId("new-tileset"), "New tileset of a picture: a PNG of the folder, or another one", why);
    allow(byId("add-tileset"), "Add a tileset of the folder to the map", why);
    const whyOne = why || (this.palette.tileset ? "" : "The map has no tileset");
    allow(byId("replace-tileset"), REPLACES, whyOne);
    allow(byId("remove-tileset"), "Remove this tileset from the map, where nothing uses it", whyOne);
  }

  // Says what is wrong with tilesets; all others are drawn.
  showWrong() {
    const { wrong } = this.tilesets;
    if (!wrong.length) return endNotice(ABOUT);
    const said = wrong.slice(0, MOST_SAID).map(({ name, why }) => `${name.slice(0, LONGEST_NAME)}: ${why}.`).join(" ");
    const words = wrong.length > MOST_SAID ? `${said} And ${wrong.length - MOST_SAID} more.` : said;
    return notice(ABOUT, `Wrong with a tileset: ${words} Tiles that its image does not hold are drawn as numbers.`, [["OK", () => {}]], "mild");
  }

  // ---- adding and removing
  // Makes a tileset of a picture, and shows it.
  async make(picture = null) {
    const first = await this.maker.make(picture);
    if (first !== null) await this.showNew(first);
  }

  async makeOf(path) {
    const picture = await this.maker.pictures.picture(path);
    if (picture) await this.make(picture);
  }

  async showNew(first) {
    await this.tilesets.reading;
    this.palette.choose(first);
    this.palette.takeTiles([0, 0], [0, 0]);
  }

  async add() {
    if (!this.bench.map) return this.bench.say("Open a map first.");
    const first = element("input", { name: "first", type: "number", min: 1, value: this.bench.carried.numbers.nextFirst() });
    const source = await this.askSource("Add a tileset", [this.firstField(first)]);
    if (!source) return null;
    const done = await this.bench.act([`tileset add ${first.value} ${source}`]);
    if (done.isAccepted) this.palette.choose(Number(first.value));
    return done;
  }

  // Asks for a tileset of the folder: gives its path from the folder of the map; null where none was chosen.
  async askSource(title, fields = []) {
    const { place, folder } = this.editor;
    const files = await place.tilesets().catch(fault => this.bench.say(`The files cannot be listed: ${thrownWords(fault)}.`) ?? []);
    const has = new Set(this.bench.map.data.tilesets.map(set => set.source));
    const known = new Map(files.filter(each => has.has(pathFrom(folder, each.path))).map(each => [each.path, "in the map already"]));
    const path = await new FileList(title, files, { known, look: each => wordsOfTileset(place, each), none: NONE_HERE, fields }).ask();
    return path && pathFrom(folder, path);
  }

  // The field of the first id, folded where it is as clear which one it is as can be.
  firstField(first) {
    const unknown = this.tilesets.all.filter(set => set.span === null).length;
    const doubt = unknown ? ` Of ${unknown} of them it is not known how many tiles they have: the last one has room for whole thousands.` : "";
    const words = element("span", { textContent: `Its tiles are counted from this number on, behind those of the others.${doubt}` });
    return element("details", { open: unknown > 0 }, element("summary", { textContent: "Number of its first tile" }), element("label", {}, words, first));
  }

  // Puts another tileset in the place of the one that is shown, as one step. No cell changes.
  async replace() {
    const { tileset } = this.palette;
    if (!this.bench.map || !tileset) return this.bench.say("The map has no tileset.");
    const source = await this.askSource(`Replace ${tileset.name}`);
    if (!source) return null;
    const owner = `tileset:${tileset.first}`;
    const { firstgid, source: old, ...others } = this.bench.map.data.tilesets.find(each => each.firstgid === tileset.first);
    const lines = [memberLine(owner, "source", source), ...Object.keys(others).map(name => memberRemoval(owner, name))];
    const done = this.bench.doAsOne("Replace Tileset || replace tileset", lines);
    if (done.isAccepted) this.replaced = { first: tileset.first, source };
    return done;
  }

  // Shows a tileset that is lost, and replaces it.
  replaceLost(first) {
    this.palette.choose(first);
    return this.replace();
  }

  // Says where the tileset that was put in another one's place lacks tiles that the map uses, once it is read.
  sayTooFew({ first, source }) {
    const tileset = this.tilesets.all.find(each => each.first === first && each.source === source);
    if (!tileset) return;
    this.replaced = null;
    const where = tileset.size ? this.uses.where(first + tileset.size, this.endOf(tileset)) : [];
    if (where.length) this.bench.say(`The map uses tiles that ${tileset.name} does not have: ${named(where)}. They are drawn as numbers.`);
  }

  // Where the values of the next tileset begin.
  endOf({ first }) {
    return this.tilesets.sets.find(each => each.first > first)?.first ?? Infinity;
  }

  remove() {
    const { tileset } = this.palette;
    if (!this.bench.map || !tileset) return this.bench.say("The map has no tileset.");
    const where = this.uses.where(tileset.first, this.endOf(tileset));
    if (where.length) return this.bench.say(`The map uses ${tileset.name}: ${named(where)}. Replace these or empty them first.`);
    return this.bench.act([`tileset remove ${tileset.first}`]);
  }
}
