// SPDX-License-Identifier: MIT OR Apache-2.0
// The images of files: how large one is, by its head, and what is unpacked of it. A file may claim anything, so its size is known before.
import { Said } from "../core/thrown_words.js";

// The most pixels of all images of one map together.
export const MOST_PIXELS = 128 * 1024 * 1024;

// What is wrong with a tileset or an image, in words.
export class Wrong extends Said {}

// An image that is wrong: `words` say what it is or has.
export class WrongImage extends Wrong {
  constructor(path, words) {
    super(`its image ${path} ${words}`);
    this.words = words;
  }
}

export const grouped = number => String(number).replace(/\B(?=(\d{3})+$)/g, ",");

// The pixels that the images of a map may still take.
export class PixelBudget {
  constructor(most = MOST_PIXELS) {
    Object.assign(this, { most, left: most });
  }

  get taken() {
    return this.most - this.left;
  }

  // Whether an image of that size still has its place; it takes it.
  takes({ width, height }) {
    const has = width * height <= this.left;
    if (has) this.left -= width * height;
    return has;
  }
}

// ---- how large an image is: each gives [width, height], or null where the bytes are of another format. What is cut short throws.
const signs = (view, at, count) => String.fromCharCode(...new Uint8Array(view.buffer, view.byteOffset + at, count));

function ofPng(view) {
  return view.getUint32(0) === 0x89504e47 ? [view.getUint32(16), view.getUint32(20)] : null;
}

function ofBmp(view) {
  if (signs(view, 0, 2) !== "BM") return null;
  if (view.getUint32(14, true) === 12) return [view.getUint16(18, true), view.getUint16(20, true)];
  return [view.getInt32(18, true), view.getInt32(22, true)].map(Math.abs);
}

// The first picture may reach out of the screen that the head tells.
function ofGif(view) {
  if (signs(view, 0, 4) !== "GIF8") return null;
  const colours = byte => (byte & 0x80 ? 3 * 2 ** ((byte & 7) + 1) : 0);
  let at = 13 + colours(view.getUint8(10));
  while (view.getUint8(at) === 0x21) {
    at += 2;
    while (view.getUint8(at) > 0) at += view.getUint8(at) + 1;
    at++;
  }
  const [screen, picture] = [6, at + 5].map(place => [view.getUint16(place, true), view.getUint16(place + 2, true)]);
  return picture.map((length, side) => Math.max(screen[side], length + view.getUint16(at + 1 + 2 * side, true)));
}

function ofWebp(view) {
  if (signs(view, 0, 4) !== "RIFF" || signs(view, 8, 4) !== "WEBP") return null;
  const kind = signs(view, 12, 4);
  if (kind === "VP8 ") return [view.getUint16(26, true) & 0x3fff, view.getUint16(28, true) & 0x3fff];
  if (kind === "VP8X") return [24, 27].map(at => (view.getUint16(at, true) | view.getUint8(at + 2) << 16) + 1);
  const bits = view.getUint32(21, true);
  return kind === "VP8L" ? [(bits & 0x3fff) + 1, (bits >>> 14 & 0x3fff) + 1] : null;
}

// Goes from segment to segment, up to the one that tells the size.
function ofJpeg(view) {
  if (view.getUint16(0) !== 0xffd8) return null;
  for (let at = 2; ;) {
    while (view.getUint8(at) === 0xff && view.getUint8(at + 1) === 0xff) at++;
    const kind = view.getUint8(at + 1);
    const isSize = kind >= 0xc0 && kind <= 0xcf && ![0xc4, 0xc8, 0xcc].includes(kind);
    if (isSize) return [view.getUint16(at + 7), view.getUint16(at + 5)];
    if (view.getUint8(at) !== 0xff || kind === 0xda) return null;
    at += 2 + Math.max(2, view.getUint16(at + 2));
  }
}

// The size of an image that is a PNG, a JPEG, a GIF, a WebP or a BMP; null where it is none of them.
function sizeOf(bytes) {
  const view = new DataView(bytes.buffer, bytes.byteOffset, bytes.length);
  try {
    return ofPng(view) ?? ofJpeg(view) ?? ofGif(view) ?? ofWebp(view) ?? ofBmp(view);
  } catch (fault) {
    if (fault instanceof RangeError) return null;
    throw fault;
  }
}

// A file of an image, with the size that its head tells: { path, bytes, width, height }. Throws WrongImage.
export function imageFile(path, bytes) {
  const size = sizeOf(bytes);
  if (!size && /\.svg$/i.test(path)) throw new WrongImage(path, "is an SVG: save it as a PNG");
  if (!size) throw new WrongImage(path, "is no PNG, JPEG, GIF, WebP or BMP");
  const [width, height] = size;
  if (width * height > MOST_PIXELS) {
    throw new WrongImage(path, `has ${grouped(width)} × ${grouped(height)} pixels, and all images of a map may have ${grouped(MOST_PIXELS)}`);
  }
  return { path, bytes, width, height };
}

// ---- what is unpacked
// The image of a file, with no more pixels than its head tells; `clear` is a colour of it that is clear, or null. Throws
// WrongImage.
export async function unpacked({ path, bytes, width, height }, clear = null) {
  const blob = new Blob([bytes]);
  const image = await createImageBitmap(blob).catch(() => partOf(blob)).catch(() => {
    throw new WrongImage(path, "is none that the browser can read");
  });
  if (image.width * image.height > width * height) {
    image.close();
    throw new WrongImage(path, "has more pixels than its head tells");
  }
  return clear ? withoutColour(image, clear) : image;
}

// The part that is there of an image that is cut short.
async function partOf(blob) {
  const image = new Image();
  image.src = URL.createObjectURL(blob);
  try {
    await image.decode();
    const sheet = new OffscreenCanvas(image.naturalWidth, image.naturalHeight);
    sheet.getContext("2d").drawImage(image, 0, 0);
    return sheet.transferToImageBitmap();
  } finally {
    URL.revokeObjectURL(image.src);
  }
}

// How many pixels are made clear before the page goes on with other things.
const AT_ONCE = 1024 * 1024;

// An image in which a colour is clear, in place of the one that is given.
async function withoutColour(image, colour) {
  const parts = colour.slice(1).map(part => Math.round(part * 255));
  const sheet = new OffscreenCanvas(image.width, image.height);
  const pen = sheet.getContext("2d", { willReadFrequently: true });
  pen.drawImage(image, 0, 0);
  const rows = Math.max(1, Math.floor(AT_ONCE / image.width));
  for (let top = 0; top < image.height; top += rows) {
    clearColour(pen, parts, [0, top, image.width, Math.min(rows, image.height - top)]);
    await new Promise(done => setTimeout(done));
  }
  image.close();
  return sheet.transferToImageBitmap();
}

function clearColour(pen, [red, green, blue], box) {
  const pixels = pen.getImageData(...box);
  const { data } = pixels;
  for (let at = 0; at < data.length; at += 4) {
    if (data[at] === red && data[at + 1] === green && data[at + 2] === blue) data[at + 3] = 0;
  }
  pen.putImageData(pixels, box[0], box[1]);
}
