// SPDX-License-Identifier: MIT OR Apache-2.0
// Chooses a picture: one of the folder or of the chosen files, or one of this machine, which then stands among them.
import { button, element } from "./dom.js";
import { FileList } from "../files/file_list.js";
import { isPictureName, pictureIn, wordsOfPicture } from "../files/new_tilesets.js";
import { thrownWords } from "../core/thrown_words.js";

const NONE = "There is no picture here: a PNG, JPEG, GIF, WebP or BMP, in the folder or among the chosen files.";

export const NO_PICTURE = Symbol("no picture");

export class PictureChoice {
  // `keep(file)` has a picture of this machine stand among the others, and gives its path; it may throw.
  constructor(bench, keep) {
    Object.assign(this, { bench, editor: bench.editor, keep });
  }

  // Asks for a picture, and gives it as { path, bytes, width, height }; null where none was wanted, or it is wrong, which is said. Where it is
  // not needed it is `NO_PICTURE` that may be chosen, too.
  async ask(title, isNeeded = true) {
    const { place } = this.editor;
    const files = (await place.names().catch(() => [])).filter(({ path }) => isPictureName(path));
    const list = new FileList(title, files, { look: path => wordsOfPicture(place, path), none: NONE, fields: this.fields(() => list, isNeeded) });
    const path = await list.ask();
    if (list.isWithout) return NO_PICTURE;
    return path ? this.picture(path) : null;
  }

  fields(listNow, isNeeded) {
    const own = this.editor.place.kind === "served" ? [] : [this.ownField(listNow)];
    const without = () => Object.assign(listNow(), { isWithout: true }).dialog.close("");
    return isNeeded ? own : [...own, element("div", { className: "choice" }, button("Without a picture", "One can be set later", without, { id: "without-picture" }))];
  }

  // The button for a picture of this machine.
  ownField(listNow) {
    const take = async () => {
      const path = await this.kept(input.files[0]);
      const list = listNow();
      if (!path) return list.dialog.close("");
      list.rows.set(path, element("li"));
      list.chosen = list.field.value = path;
      return list.dialog.close("OK");
    };
    const input = element("input", { type: "file", hidden: true, id: "picture-file", accept: "image/*", onchange: take });
    return element("div", { className: "choice" }, button("A picture of this machine", "Choose one that is elsewhere", () => input.click(), { id: "own-picture" }), input);
  }

  // The path of a picture of this machine, which stands among the others from now on; null where that is refused, which is said.
  async kept(file) {
    try {
      return await this.editor.during(this.keep(file));
    } catch (fault) {
      return this.bench.say(`${file.name} was not taken: ${thrownWords(fault)}.`);
    }
  }

  async picture(path) {
    try {
      return await pictureIn(this.editor.place, path);
    } catch (fault) {
      return this.bench.say(`${path} was not taken: ${thrownWords(fault)}.`);
    }
  }
}
