// SPDX-License-Identifier: MIT OR Apache-2.0
// A picture with the lines by which a tileset cuts it, and words of how many tiles that makes, as the fields of a dialog say.
import { element } from "./dom.js";
import { cutOf } from "../files/new_tilesets.js";
import { grouped, unpacked } from "../files/image_files.js";

// The size of the preview in pixels of the page, the most tiles that are framed one by one, and how large a small picture is drawn at most.
const [WIDTH, HEIGHT] = [400, 260];
const MOST_FRAMED = 16_384;
const LARGEST = 8;
const LINES = { light: "#ffffff", dark: "#10131a" };
const OUTSIDE = "#00000099";

const counted = (count, one) => `${grouped(count)} ${one}${count === 1 ? "" : "s"}`;

export class CutPreview {
  // `numbersIn(form)` gives { side, tall, margin, spacing } of what is typed.
  constructor(picture, numbersIn) {
    Object.assign(this, { picture, numbersIn, image: null });
    this.canvas = element("canvas", { id: "cut-preview", width: WIDTH, height: HEIGHT, ariaHidden: "true" });
    this.words = element("p", { id: "cut-words", role: "status" });
    this.element = element("div", {}, this.canvas, this.words);
  }

  begin(form) {
    this.form = form;
    form.addEventListener("input", () => this.show());
    // Presets fill fields without an event.
    form.addEventListener("click", () => this.show());
    this.show();
    this.read();
  }

  async read() {
    this.image = await unpacked(this.picture).catch(() => null);
    this.show();
  }

  show() {
    const numbers = this.numbersIn(this.form);
    this.cut = cutOf(this.picture, numbers);
    this.words.textContent = this.wordsOf(numbers);
    this.draw(numbers);
  }

  wordsOf({ side, tall }) {
    const { columns, rows, count, restX, restY } = this.cut;
    const { width, height } = this.picture;
    const size = `The picture has ${grouped(width)} × ${grouped(height)} pixels`;
    if (!count) return `${size}: no tile of ${side} × ${tall} has room in it.`;
    const rests = [restX && `${restX} at the right`, restY && `${restY} below`].filter(Boolean).join(" and ");
    return `${size}: ${counted(count, "tile")}, ${columns} × ${rows}.${rests ? ` Pixels of no tile: ${rests}.` : ""}`;
  }

  draw(numbers) {
    const { canvas, picture, image } = this;
    const pen = canvas.getContext("2d");
    const least = Math.min(WIDTH / picture.width, HEIGHT / picture.height);
    const scale = least >= 1 ? Math.min(LARGEST, Math.floor(least)) : least;
    this.scale = scale;
    Object.assign(canvas, { width: Math.ceil(picture.width * scale), height: Math.ceil(picture.height * scale) });
    pen.imageSmoothingEnabled = scale < 1;
    if (image) pen.drawImage(image, 0, 0, picture.width * scale, picture.height * scale);
    this.drawTiles(pen, scale, numbers);
  }

  // Each tile has a frame, and what is of none is darker.
  drawTiles(pen, scale, { side, tall, margin, spacing }) {
    const { columns, rows, count } = this.cut;
    if (!count || count > MOST_FRAMED) return;
    const outside = new Path2D();
    outside.rect(0, 0, this.canvas.width, this.canvas.height);
    const frames = [];
    for (let at = 0; at < count; at++) {
      const [x, y] = [margin + at % columns * (side + spacing), margin + Math.floor(at / columns) * (tall + spacing)].map(each => each * scale);
      frames.push([Math.round(x) + 0.5, Math.round(y) + 0.5, Math.max(1, Math.round(side * scale) - 1), Math.max(1, Math.round(tall * scale) - 1)]);
      outside.rect(x, y, side * scale, tall * scale);
    }
    pen.fillStyle = OUTSIDE;
    pen.fill(outside, "evenodd");
    if (side * scale < 4 || tall * scale < 4 || !rows) return;
    for (const [colour, dash] of [[LINES.dark, []], [LINES.light, [2, 2]]]) {
      pen.strokeStyle = colour;
      pen.setLineDash(dash);
      for (const frame of frames) pen.strokeRect(...frame);
    }
  }
}
