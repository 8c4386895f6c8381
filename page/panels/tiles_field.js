// SPDX-License-Identifier: MIT OR Apache-2.0
// The tiles of a new map, in its dialog: a tileset or a picture of the folder or of the chosen files, a picture of this machine, or none yet. What
// is chosen proposes the size of a tile; of a picture it is shown how that is cut.
import { button, element } from "./dom.js";
import { CutPreview } from "./cut_preview.js";
import { isPictureName, pictureIn } from "../files/new_tilesets.js";
import { checked, readTileset } from "../files/tileset_files.js";
import { numbersIn, whereField } from "./tileset_maker.js";
import { thrownWords } from "../core/thrown_words.js";

const NONE = "none yet";
// Sides of tiles, of which the first one is proposed that fits into a picture without a rest.
const LIKELY = [16, 32, 24, 48, 8, 64];

const likelySide = ({ width, height }) => LIKELY.find(side => width % side === 0 && height % side === 0) ?? LIKELY[0];

const numberField = (name, label) => element("label", {}, element("span", { textContent: label }), element("input", { name, value: 0, autocomplete: "off" }));

export class TilesField {
  // `tilesets` and `pictures` are the paths of those that are there, and `path` is the one that is proposed. `choice` takes a picture of this
  // machine.
  constructor(place, tilesets, pictures, path, choice) {
    Object.assign(this, { place, choice, found: null, isTyped: false });
    this.select = element("select", { name: "tiles", ariaLabel: "Its tiles", onchange: () => this.take() });
    const group = (label, paths) => paths.length > 0 && this.select.append(element("optgroup", { label }, ...paths.map(each => element("option", { value: each, textContent: each }))));
    group("Tilesets", tilesets);
    group("Pictures", pictures);
    this.select.append(element("option", { value: "", textContent: NONE }));
    this.select.value = path;
    this.words = element("small", { className: "fault", role: "alert" });
    this.cut = element("div", { id: "new-map-cut" });
    this.element = element("div", { id: "new-map-tiles" }, element("div", { className: "choice" }, element("span", { textContent: "Its tiles" }), this.select, ...this.own()), this.words, this.cut);
  }

  own() {
    if (this.place.kind === "served") return [];
    const input = element("input", { type: "file", hidden: true, id: "picture-file", accept: "image/*", onchange: () => this.takeOwn(input.files[0]) });
    return [button("Another picture", "A picture of this machine", () => input.click(), { id: "own-picture" }), input];
  }

  begin(form) {
    this.form = form;
    form.addEventListener("input", ({ target }) => (this.isTyped ||= target.name === "side" || target.name === "tall"));
    this.take();
  }

  // Resolves when what is chosen is read.
  take() {
    return (this.ready = this.read(this.select.value));
  }

  async takeOwn(file) {
    const path = await this.choice.kept(file);
    if (!path) return;
    if (![...this.select.options].some(({ value }) => value === path)) this.select.prepend(element("option", { value: path, textContent: path }));
    this.select.value = path;
    this.take();
  }

  // Reads a tileset or a picture: { path, picture }, where the picture is null of a tileset.
  async read(path) {
    this.words.textContent = "";
    this.found = null;
    let said = "";
    const found = path === "" ? null : await this.look(path).catch(fault => void (said = `${path}: ${thrownWords(fault)}.`));
    if (this.select.value !== path) return;
    this.words.textContent = said;
    this.found = found ?? null;
    if (found?.sides && !this.isTyped) [this.form.elements.side.value, this.form.elements.tall.value] = found.sides;
    this.showCut();
  }

  async look(path) {
    if (isPictureName(path)) {
      const picture = await pictureIn(this.place, path);
      return { path, picture, sides: [likelySide(picture), likelySide(picture)] };
    }
    const { tilewidth, tileheight } = checked(await readTileset(await this.place.bytes(path)));
    return { path, picture: null, sides: tilewidth && tileheight ? [tilewidth, tileheight] : null };
  }

  // A picture is cut as the fields say.
  showCut() {
    const picture = this.found?.picture ?? null;
    if (!picture) return this.cut.replaceChildren();
    const fields = [numberField("margin", "Margin around all tiles"), numberField("spacing", "Spacing between tiles"), ...whereField(this.place).map(each => each.element)];
    const preview = new CutPreview(picture, numbersIn);
    this.cut.replaceChildren(...fields, preview.element);
    return preview.begin(this.form);
  }
}
