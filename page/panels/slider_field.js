// SPDX-License-Identifier: MIT OR Apache-2.0
// A number with a slider beside it, which goes from the least value to the greatest one.
import { element } from "./dom.js";
import { NumberField } from "./fields.js";

// How near to one another the values of a slider are.
const STEP = 0.01;

export class SliderField extends NumberField {
  // `slide(text)` sets a value at once, and gives whether it was accepted; `end()` is called where what follows is another drag.
  constructor(kind, value, take, { least, most, slide, end }) {
    super(kind, value, take);
    this.slide = slide;
    this.slider = element("input", { type: "range", min: least, max: most, step: STEP, oninput: () => this.slid() });
    // Behind a drag by the mouse the keys go to the map again.
    Object.assign(this.slider, { onpointerdown: end, onpointerup: () => this.slider.blur(), onblur: end });
    this.box.classList.add("slides");
    this.box.prepend(this.slider);
    this.fit();
  }

  fit() {
    const text = this.kind.spelled(this.input.value);
    if (this.slider && !this.kind.fault(text)) this.showAt(text);
  }

  update(value) {
    super.update(value);
    if (!this.isTyped) this.showAt(value);
  }

  showAt(text) {
    this.slider.value = text;
  }

  slid() {
    const text = String(Number(this.slider.value));
    if (text !== this.value && this.slide(text)) this.put(text);
    this.showAt(this.value);
  }
}
