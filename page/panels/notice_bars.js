// SPDX-License-Identifier: MIT OR Apache-2.0
// Bars over the map that stay until they are answered, one for each thing that they are about.
import { button, byId, element } from "./dom.js";

const all = new Map();
// What stands below the bars leaves room for them.
const leaveRoom = () => byId("stage").classList.toggle("has-notice", all.size > 0);

// Says something, with buttons: [text, what a click does, title]. A click takes the bar away, but where what it does gives `false`.
export function notice(about, words, buttons = [], kind = "") {
  const made = buttons.map(([text, onclick, title = ""]) => button(text, title, async event => {
    event.target.disabled = true;
    if ((await onclick()) === false) event.target.disabled = false;
    else endNotice(about, bar);
  }));
  const bar = element("div", { className: `notice ${kind}`, data: { about } }, element("span", { textContent: words }), ...made);
  all.get(about)?.remove();
  all.set(about, bar);
  byId("notice-bars").append(bar);
  leaveRoom();
}

export const hasNotice = about => all.has(about);

// Takes a bar away, where it is still the one about that.
export function endNotice(about, bar = all.get(about)) {
  bar?.remove();
  if (all.get(about) === bar) all.delete(about);
  leaveRoom();
}
