// SPDX-License-Identifier: MIT OR Apache-2.0
// Light or dark: as the system is, or as the user has chosen, which the browser keeps for the next visit.
import { byId } from "../panels/dom.js";
import { iconButton, showIcon } from "../panels/icons.js";

const STORED = "roskevad-look";
// Each look with what its button says; the next one follows by a click.
const LOOKS = { system: "as the system is", light: "light", dark: "dark" };
const NAMES = Object.keys(LOOKS);

function stored() {
  try {
    const look = localStorage.getItem(STORED);
    return Object.hasOwn(LOOKS, look) ? look : "system";
  } catch {
    return "system";
  }
}

// Shows the page by a look: the styles have the colours of both.
function shown(look) {
  document.documentElement.dataset.look = look;
  return look;
}

// The page begins with the look that was chosen.
let look = shown(stored());

export class Look {
  // `onChange` is called where the page has other colours.
  constructor(onChange) {
    this.onChange = onChange;
    this.button = iconButton("system", "Light or dark", "", () => this.choose(this.next), { id: "turn-look" });
    byId("page-actions").prepend(this.button);
    matchMedia("(prefers-color-scheme: light)").addEventListener("change", onChange);
    // Another window has chosen.
    addEventListener("storage", ({ key }) => key === STORED && this.take(stored()));
    this.show();
  }

  get next() {
    return NAMES[(NAMES.indexOf(look) + 1) % NAMES.length];
  }

  choose(name) {
    this.take(name);
    try {
      localStorage.setItem(STORED, name);
    } catch (fault) {
      console.warn(`the look is not kept: ${fault.message}`);
    }
  }

  take(name) {
    look = shown(name);
    this.show();
    this.onChange();
  }

  show() {
    showIcon(this.button, look);
    this.button.title = `Light or dark: ${LOOKS[look]}. A click: ${LOOKS[this.next]}`;
  }
}
