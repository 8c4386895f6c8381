// SPDX-License-Identifier: MIT OR Apache-2.0
// The images of image layers, and tinted ones: asked for when they are first seen, once the tilesets have theirs. They have the pixels that
// are left then.
import { PixelBudget, WrongImage, imageFile, unpacked } from "../files/image_files.js";
import { folderOf } from "../files/names.js";
import { Tints, partsOfColour } from "./tints.js";
import { Said } from "../core/thrown_words.js";

export class MapImages {
  constructor(editor, tilesets) {
    Object.assign(this, { editor, tilesets });
    // Called where one has come, or cannot be had.
    this.onImage = () => {};
    this.forget();
  }

  // Asks for all anew: others can be had by now.
  forget() {
    for (const image of this.all?.values() ?? []) image?.close();
    this.tints?.close();
    // By their paths and clear colours: an image, or null until it is there, or for good.
    this.all = new Map();
    // The paths of those that cannot be had and of those that have no pixels left, and what is wrong with others: [path, words].
    Object.assign(this, { missing: new Set(), past: new Set(), wrong: new Map() });
    Object.assign(this, { left: null, waiting: 0, turn: Promise.resolve() });
    this.tints = new Tints(image => this.hasPixelsFor(image), () => this.onImage());
  }

  // Whether there are pixels left for an image; it takes them.
  hasPixelsFor(image) {
    return (this.left ??= new PixelBudget(this.tilesets.budget.left)).takes(image);
  }

  pathOf(layer) {
    return layer.data.image ? folderOf(this.editor.openDocuments.file?.path ?? "") + layer.data.image : null;
  }

  // The image of a layer; null where it has none, or not yet.
  of(layer) {
    const path = this.pathOf(layer);
    if (path === null || this.tilesets.isReading) return null;
    const clear = partsOfColour(layer.data.transparentcolor);
    const key = `${clear ?? ""} ${path}`;
    if (!this.all.has(key)) {
      this.all.set(key, null);
      this.waiting++;
      const { all } = this;
      // One behind the other, so that those drawn first have their pixels first.
      this.turn = this.turn.then(() => this.load(all, key, path, clear));
    }
    return this.all.get(key);
  }

  // `clear` is a colour of the image that is clear. Nothing is loaded for images that were forgotten meanwhile.
  async load(all, key, path, clear) {
    if (this.all !== all) return;
    const image = await this.read(all, path, clear).catch(fault => fault);
    if (this.all !== all) {
      image?.close?.();
      return;
    }
    if (image instanceof WrongImage) this.wrong.set(path, image.words);
    else if (image instanceof Error) this.missing.add(path);
    else this.all.set(key, image);
    this.waiting--;
    this.onImage();
  }

  // The image of a path; null where it has no pixels left. Throws WrongImage, or another fault where the file cannot be had.
  async read(all, path, clear) {
    const bytes = await this.editor.place.bytes(path);
    if (!bytes) throw new Said("the file is not there");
    const file = imageFile(path, bytes);
    if (this.all !== all) return null;
    if (this.hasPixelsFor(file)) return unpacked(file, clear);
    this.past.add(path);
    return null;
  }
}
