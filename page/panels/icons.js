// SPDX-License-Identifier: MIT OR Apache-2.0
// The pictures on buttons, drawn in the colour of their text on a square of 24.
import { button } from "./dom.js";

const SPACE = "http://www.w3.org/2000/svg";
// The lines of each, and what is filled of it.
const ICONS = {
  brush: ["M20.5 3.5 11 13M9.5 12.5c-3 0-4 2-4 4 0 1.5-1 3-2.5 3.5 4.5 1.5 9.5.5 9.5-4 0-1.8-1.2-3.5-3-3.5z", "M9.5 12.5c-3 0-4 2-4 4 0 1.5-1 3-2.5 3.5 4.5 1.5 9.5.5 9.5-4 0-1.8-1.2-3.5-3-3.5z"],
  eraser: ["M8 20h12M4 15.5 14 5.5l5.5 5.5L11 19.5 8 20zM9 10.5l5.5 5.5", "M4 15.5 9 10.5l5.5 5.5L11 19.5 8 20z"],
  fill: ["M4.5 12 12 4.5 19 12l-7 7zM12 4.5 9.5 2M21 16.5c1 1.5 1.5 2.2 1.5 3a1.5 1.5 0 0 1-3 0c0-.8.5-1.5 1.5-3z", "M4.5 12H19l-7 7z"],
  rectangle: ["M3.5 6h17v12h-17z", "M3.5 6h17v12h-17z"],
  select: ["M4 8V4h4M10.5 4h3M16 4h4v4M20 10.5v3M20 16v4h-4M13.5 20h-3M8 20H4v-4M4 13.5v-3"],
  objects: ["M5.5 3.5 19 11.5l-6 1.5-3.5 6z", "M5.5 3.5 19 11.5l-6 1.5-3.5 6z"],
  insert: ["M3.5 3.5h12v12h-12zM18.5 14.5v8M14.5 18.5h8"],
  shapeRectangle: ["M3.5 6h17v12h-17z"],
  shapePoint: ["M12 21.5s-6-6.4-6-11.2a6 6 0 0 1 12 0c0 4.8-6 11.2-6 11.2zM12 8.3a2 2 0 1 0 .01 0z"],
  shapeEllipse: ["M12 5.5c4.8 0 8.5 2.9 8.5 6.5s-3.7 6.5-8.5 6.5S3.5 15.6 3.5 12 7.2 5.5 12 5.5z"],
  shapePolygon: ["M3.5 10.5 11 4l9.5 5-3 11h-9z"],
  shapePolyline: ["M3.5 18.5 9 6.5l5.5 9 6-11"],
  shapeTile: ["M4 4h16v16H4zM4 15.5l4.5-5 4 4.5 3-3 4.5 4.5M15.5 8h.01"],
  shapeText: ["M5 7V4.5h14V7M12 4.5v15M9 19.5h6"],
  take: ["M9.5 13c.5-4-1-4.5-1-6.5a3.5 3.5 0 0 1 7 0c0 2-1.5 2.5-1 6.5h2.5a2.5 2.5 0 0 1 2.5 2.5V17h-15v-1.5A2.5 2.5 0 0 1 7 13zM4.5 20.5h15"],
  undo: ["M8.5 4.5 4 9l4.5 4.5M4 9h10a5.5 5.5 0 0 1 0 11H9"],
  redo: ["M15.5 4.5 20 9l-4.5 4.5M20 9H10a5.5 5.5 0 0 0 0 11h5"],
  macro: ["M12 4a8 8 0 1 0 .01 0z", "M12 8.5a3.5 3.5 0 1 0 .01 0z"],
  group: ["M4 5h10M4 9.7h10M4 14.3h10M4 19h10M17 5h3v14h-3", "M4 4h10v16H4z"],
  smaller: ["M10.5 4a6.5 6.5 0 1 0 .01 0zM15.5 15.5l5 5M7.5 10.5h6"],
  larger: ["M10.5 4a6.5 6.5 0 1 0 .01 0zM15.5 15.5l5 5M7.5 10.5h6M10.5 7.5v6"],
  fit: ["M4 9V4h5M15 4h5v5M20 15v5h-5M9 20H4v-5M8.5 8.5h7v7h-7z"],
  grid: ["M4 4h16v16H4zM4 9.5h16M4 14.5h16M9.5 4v16M14.5 4v16"],
  names: ["M3.5 12 11 4.5h8.5V13L12 20.5zM15.5 8.5h.01"],
  miniMap: ["M3.5 5h17v14h-17z", "M12 11.5h5.5v4.5H12z"],
  new: ["M6 3h8l5 5v13H6zM14 3v5h5M12.5 11.5v6M9.5 14.5h6"],
  open: ["M4 6.5l5-2.5 6 2.5L20 4v13.5L15 20l-6-2.5L4 20zM9 4v13.5M15 6.5V20"],
  save: ["M4 4h12.5L20 7.5V20H4zM8 4v5h7V4M7.5 20v-6.5h9V20"],
  saveAs: ["M10 20H4V4h12l3.5 3.5V10M8 4v5h7V4M13 21l.7-3 5.8-5.8 2.3 2.3-5.8 5.8z"],
  resize: ["M4 9.5V4h5.5M4 4l7 7M20 14.5V20h-5.5M20 20l-7-7"],
  folder: ["M3.5 19V5.5h6l2 2.5h9v11z"],
  files: ["M6 3h8l5 5v13H6zM14 3v5h5M12.5 18v-6.5M9.5 14.2l3-3 3 3"],
  tileLayer: ["M3.5 3.5h12v12h-12zM3.5 9.5h12M9.5 3.5v12M19 15v7.5M15.2 18.7h7.6"],
  objectLayer: ["M11.5 3.5h8v8h-8zM6.5 9.5a4 4 0 1 0 .01 0zM18 14.5V22M14.2 18.3h7.6"],
  imageLayer: ["M3.5 3.5h12v12h-12zM3.5 13l4-4.5 3 3.5 2-2 3 3M19 15v7.5M15.2 18.7h7.6"],
  newTileset: ["M3.5 3.5h6v6h-6zM3.5 11.5h6v6h-6zM11.5 3.5h6v6h-6zM17 12.5v8M13 16.5h8", "M3.5 3.5h6v6h-6z"],
  replace: ["M4 8.5h14.5l-4.5-4.5M20 15.5H5.5l4.5 4.5"],
  groupLayer: ["M3.5 15.5v-11h4l2 2.5h6v8.5zM19 15v7.5M15.2 18.7h7.6"],
  up: ["M12 20V4.5M5.5 11 12 4.5 18.5 11"],
  down: ["M12 4v15.5M5.5 13l6.5 6.5 6.5-6.5"],
  rename: ["M4 20l1-4.5L16.5 4 20 7.5 8.5 19zM14 6.5l3.5 3.5"],
  remove: ["M4 7h16M9 7V4h6v3M6 7l1 13.5h10L18 7M10 11v6M14 11v6"],
  minus: ["M5 12h14"],
  plus: ["M5 12h14M12 5v14"],
  list: ["M8.5 6h11.5M8.5 12h11.5M8.5 18h11.5M4.5 6h.01M4.5 12h.01M4.5 18h.01"],
  close: ["M6.5 6.5l11 11M17.5 6.5l-11 11"],
  seen: ["M2.5 12S6 6 12 6s9.5 6 9.5 6-3.5 6-9.5 6-9.5-6-9.5-6z", "M12 9.3a2.7 2.7 0 1 0 .01 0z"],
  hidden: ["M2.5 12S6 6 12 6s9.5 6 9.5 6-3.5 6-9.5 6-9.5-6-9.5-6zM4.5 20 19.5 4"],
  locked: ["M5.5 11h13v9h-13zM8.5 11V7.5a3.5 3.5 0 0 1 7 0V11", "M5.5 11h13v9h-13z"],
  unlocked: ["M5.5 11h13v9h-13zM8.5 11V7.5a3.5 3.5 0 0 1 6.8-1.2"],
  system: ["M12 4a8 8 0 1 0 .01 0zM12 4v16", "M12 4a8 8 0 0 1 0 16z"],
  light: ["M12 7.5a4.5 4.5 0 1 0 .01 0zM12 2v2.5M12 19.5V22M2 12h2.5M19.5 12H22M4.9 4.9l1.8 1.8M17.3 17.3l1.8 1.8M4.9 19.1l1.8-1.8M17.3 6.7l1.8-1.8"],
  dark: ["M19.5 14.5A8 8 0 0 1 9.5 4.5a8 8 0 1 0 10 10z", "M19.5 14.5A8 8 0 0 1 9.5 4.5a8 8 0 1 0 10 10z"],
  keys: ["M3 6.5h18v11H3zM6.5 10h.01M10 10h.01M13.5 10h.01M17 10h.01M7.5 14h9"],
  lesson: ["M2.5 9 12 4.5 21.5 9 12 13.5zM6.5 11v5.5c3.5 2.5 7.5 2.5 11 0V11M21.5 9v6", "M2.5 9 12 4.5 21.5 9 12 13.5z"],
  log: ["M4 6h16M4 12h11M4 18h14"],
};

// A picture by its name. What it shows is told by the button that has it.
export function icon(name) {
  const drawn = document.createElementNS(SPACE, "svg");
  const attributes = { viewBox: "0 0 24 24", class: "icon", "aria-hidden": "true", focusable: "false" };
  for (const [key, value] of Object.entries(attributes)) drawn.setAttribute(key, value);
  ICONS[name].forEach((lines, at) => drawn.append(pathOf(lines, at > 0)));
  return drawn;
}

function pathOf(lines, isFilled) {
  const path = document.createElementNS(SPACE, "path");
  path.setAttribute("d", lines);
  if (isFilled) path.setAttribute("class", "filled");
  return path;
}

// A button with a picture, whose name is told by its title and to readers of the screen.
export function iconButton(picture, name, title, onclick, properties = {}) {
  const made = button("", title, onclick, properties);
  made.setAttribute("aria-label", name);
  made.append(icon(picture));
  return made;
}

// Shows another picture on a button.
export function showIcon(shown, picture) {
  if (shown.dataset.icon === picture) return;
  shown.dataset.icon = picture;
  shown.replaceChildren(icon(picture));
}
