// SPDX-License-Identifier: MIT OR Apache-2.0
// Images with a tint, as Tiled has it: each colour is multiplied by it, and its alpha is that of the whole.

// The parts of a colour of Tiled, `#rrggbb` or `#aarrggbb`: [alpha, red, green, blue], each up to 1; null where it is none.
export function partsOfColour(text) {
  const digits = /^#?((?:[0-9a-f]{2}){3,4})$/i.exec(text ?? "")?.[1];
  if (!digits) return null;
  const parts = (digits.length === 6 ? `ff${digits}` : digits).match(/../g);
  return parts.map(part => parseInt(part, 16) / 255);
}

// A colour of Tiled in the browser's spelling; `usual` where it is none.
export function colourOfText(text, usual) {
  const parts = partsOfColour(text);
  if (!parts) return usual;
  const [alpha, ...others] = parts;
  return `rgb(${others.map(part => Math.round(part * 255)).join(" ")} / ${alpha})`;
}

// Two tints, one over the other.
export function bothTints(one, other) {
  return one && other ? one.map((part, at) => part * other[at]) : one ?? other;
}

export class Tints {
  // `hasPixelsFor(image)` tells whether there are pixels for a copy; where there are none, `onPast` is called once.
  constructor(hasPixelsFor, onPast) {
    Object.assign(this, { hasPixelsFor, onPast, all: new Map(), numbers: new WeakMap(), count: 0, isPast: false });
  }

  // An image with a tint, which is as `partsOfColour` gives it; the image itself where there are no pixels for that.
  of(image, tint) {
    if (!this.numbers.has(image)) this.numbers.set(image, ++this.count);
    const key = `${this.numbers.get(image)} ${tint.join(" ")}`;
    if (!this.all.has(key)) this.all.set(key, this.hasPixelsFor(image) ? tinted(image, tint) : this.past(image));
    return this.all.get(key);
  }

  past(image) {
    if (!this.isPast) setTimeout(this.onPast);
    this.isPast = true;
    return image;
  }

  // Lets the copies go.
  close() {
    for (const image of this.all.values()) image.close();
  }
}

function tinted(image, [alpha, red, green, blue]) {
  const sheet = new OffscreenCanvas(image.width, image.height);
  const pen = sheet.getContext("2d");
  pen.drawImage(image, 0, 0);
  pen.globalCompositeOperation = "multiply";
  pen.fillStyle = `rgb(${[red, green, blue].map(part => Math.round(part * 255)).join(" ")})`;
  pen.fillRect(0, 0, image.width, image.height);
  pen.globalCompositeOperation = "destination-in";
  pen.drawImage(image, 0, 0);
  pen.fillStyle = `rgb(0 0 0 / ${alpha})`;
  pen.fillRect(0, 0, image.width, image.height);
  return sheet.transferToImageBitmap();
}
