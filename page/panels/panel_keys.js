// SPDX-License-Identifier: MIT OR Apache-2.0
// F6 goes from panel to panel, as in the programs of a desktop: to what in it Tab would reach first.
const PLACES = [
  ["#menu-button"], ["#tools .on", "#tools button"], ["#tabs .tab[tabindex]"],
  ["#palette", "#panel-tiles h2"], ["#properties input", "#properties textarea", "#panel-properties h2"], ["#view"],
  ["#layers li[tabindex]", "#panel-layers h2"], ["#objects li[tabindex]", "#panel-objects h2"], ["#steps li[tabindex]", "#panel-steps h2"], ["#line"],
];
const PANELS = ["#file-actions", "#tools", "#tabs", "#panel-tiles", "#panel-properties", "#view", "#panel-layers", "#panel-objects", "#panel-steps", "#line-box"];

const isSeen = at => at.checkVisibility({ visibilityProperty: true }) && at.getClientRects().length > 0 && !at.disabled;

export class PanelKeys {
  constructor() {
    this.last = -1;
    // A field is left before its key is done.
    document.addEventListener("focusin", event => {
      const at = PANELS.findIndex(css => event.target.closest(css));
      if (at >= 0) this.last = at;
    });
  }

  go(by) {
    for (let step = 1; step <= PLACES.length; step++) {
      const at = (Math.max(this.last, by > 0 ? -1 : 0) + by * step + 2 * PLACES.length) % PLACES.length;
      const found = PLACES[at].flatMap(css => [...document.querySelectorAll(css)]).find(isSeen);
      if (!found) continue;
      found.focus({ focusVisible: true });
      this.last = at;
      return;
    }
  }
}
