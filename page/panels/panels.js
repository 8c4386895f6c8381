// SPDX-License-Identifier: MIT OR Apache-2.0
// The panels around the map: a click at a head folds one, and the edges between them are dragged, by arrow keys too. An edge is thin, so
// that it covers nothing; so grips below it, the bar below the map, or the head of the panel below it are dragged as well.
import { byId, element } from "./dom.js";
import { ARROW_KEYS, callsOf, pressed } from "../tools/key_tables.js";
import { icon } from "./icons.js";

// The least width of a column and height of a panel or of the lines, and the most of the window that a column takes.
const LEAST_WIDTH = 150;
const LEAST_HEIGHT = 34;
const MOST = 0.6;
// How far the hand moves before a press is a drag, in pixels of the page.
const SHORTEST_DRAG = 4;
// How far an arrow key moves an edge, in pixels of the page.
const STEP = 16;

// Moves an edge by an arrow key. `drag` takes where the edge is to be, as an event of the mouse has it.
function moveEdge(edge, isFlat, drag, [right, down]) {
  if (!(isFlat ? down : right)) return false;
  const frame = edge.getBoundingClientRect();
  drag({ clientX: (frame.left + frame.right) / 2 + right * STEP, clientY: (frame.top + frame.bottom) / 2 + down * STEP });
  edge.ariaValueNow = String(Math.round(isFlat ? edge.getBoundingClientRect().top : edge.getBoundingClientRect().left));
  return true;
}

// The rows of the table of keys for an edge.
const rowsOfEdge = (edge, isFlat, drag) => [[ARROW_KEYS, "Move the edge", to => moveEdge(edge, isFlat, drag, to)]];

export const EDGE_KEYS = { title: "The edge of a panel, by Tab", rows: rowsOfEdge() };

function edgeByKeys(edge, isFlat, drag) {
  edge.tabIndex = 0;
  edge.role = "separator";
  edge.ariaLabel = edge.title;
  edge.ariaOrientation = isFlat ? "horizontal" : "vertical";
  const calls = callsOf(rowsOfEdge(edge, isFlat, drag));
  edge.addEventListener("keydown", event => pressed(calls, event));
  edge.ariaValueNow = "0";
}

export class Panels {
  // `onChange` is called where something is another size, or folded.
  constructor(onChange) {
    this.onChange = onChange;
    this.columns = [byId("left"), byId("right")].map(column => ({ column, parts: this.wrapped(column) }));
    byId("left").after(this.edge("left-edge", "Drag: the width of the panels on the left", event => this.widen("left", event.clientX)));
    byId("right").before(this.edge("right-edge", "Drag: the width of the panels on the right", event => this.widen("right", innerWidth - event.clientX)));
    const footer = document.querySelector("footer");
    footer.prepend(this.grip("left-grip", "left", byId("left-edge"), aside => this.widen("left", aside)));
    footer.append(this.grip("right-grip", "right", byId("right-edge"), aside => this.widen("right", innerWidth - aside)));
    this.bindFooter(footer);
    byId("line-box").before(this.edge("line-edge", "Drag: the height of the log", event => this.heighten(event.clientY), true));
    byId("turn-log").prepend(icon("log"));
    byId("turn-log").onclick = () => {
      this.showLog(byId("line-box").hidden);
      this.onChange();
    };
    this.showLog(false);
    for (const each of this.columns) for (const part of each.parts.slice(1)) this.bindHead(each, part);
  }

  // The panels of both columns.
  get parts() {
    return this.columns.flatMap(({ parts }) => parts);
  }

  // Makes a panel of each head of a column and of what is below it.
  wrapped(column) {
    const parts = [];
    for (const child of [...column.children]) {
      if (child.tagName === "H2") {
        child.title = "Fold or unfold";
        child.onclick = () => this.fold(child.parentElement);
        parts.push(element("section", { className: "panel", id: `panel-${child.textContent.toLowerCase()}` }));
      }
      parts[parts.length - 1]?.append(child);
    }
    column.append(...parts);
    return parts;
  }

  edge(id, title, drag, isFlat = false) {
    const edge = element("div", { className: `edge${isFlat ? " flat" : ""}`, id, title });
    edgeByKeys(edge, isFlat, event => {
      drag(event);
      this.onChange();
    });
    this.bindDrag(edge, () => drag);
    return edge;
  }

  // `start` takes the press, and gives what a move of the hand does, or null where the press is not for it.
  bindDrag(at, start) {
    at.onpointerdown = event => {
      const drag = event.button === 0 ? start(event) : null;
      if (!drag) return;
      event.preventDefault();
      at.setPointerCapture(event.pointerId);
      at.onpointermove = drag;
    };
    at.onpointerup = at.onpointercancel = () => {
      if (!at.onpointermove) return;
      at.onpointermove = null;
      this.onChange();
    };
  }

  // What drags an edge at an end of the bar below the map. `move` takes where that side of the edge is to be.
  grip(id, side, edge, move) {
    const made = element("span", { className: "grip", id, title: edge.title, ariaHidden: "true" });
    this.bindDrag(made, event => {
      const aside = edge.getBoundingClientRect()[side] - event.clientX;
      return ({ clientX }) => move(clientX + aside);
    });
    return made;
  }

  // The bar below the map drags the edge of the log.
  bindFooter(footer) {
    this.bindDrag(footer, event => {
      if (byId("line-box").hidden || event.target.closest("button, .grip")) return null;
      const down = byId("line-edge").getBoundingClientRect().bottom - event.clientY;
      return ({ clientY }) => this.heighten(clientY + down);
    });
  }

  // The head of a panel drags the edge above it; a press that does not move is a click.
  bindHead(each, part) {
    const edge = this.edge(`${part.id}-edge`, "Drag: the heights", event => this.share(each, part, event.clientY), true);
    part.before(edge);
    const head = part.querySelector("h2");
    this.bindDrag(head, event => {
      const [from, down] = [event.clientY, edge.getBoundingClientRect().top - event.clientY];
      this.isDragged = false;
      return ({ clientY }) => {
        this.isDragged ||= Math.abs(clientY - from) >= SHORTEST_DRAG;
        if (this.isDragged) this.share(each, part, clientY + down);
      };
    });
    head.title = "Fold or unfold; a drag moves the edge above";
    head.addEventListener("click", event => {
      if (this.isDragged) event.stopImmediatePropagation();
      this.isDragged = false;
    }, true);
  }

  fold(part) {
    part.classList.toggle("folded");
    this.onChange();
  }

  // The log is folded until it is wanted.
  showLog(isShown) {
    byId("line-box").hidden = byId("line-edge").hidden = !isShown;
    byId("turn-log").setAttribute("aria-expanded", String(isShown));
    document.querySelector("footer").classList.toggle("drags", isShown);
    byId("lines").scrollTop = byId("lines").scrollHeight;
  }

  // ---- sizes
  widen(id, width) {
    byId(id).style.width = `${Math.round(Math.max(LEAST_WIDTH, Math.min(innerWidth * MOST, width)))}px`;
  }

  heighten(top) {
    const box = byId("line-box");
    const bottom = box.getBoundingClientRect().bottom;
    box.style.height = `${Math.round(Math.max(LEAST_HEIGHT, Math.min(innerHeight * MOST, bottom - top)))}px`;
  }

  // The heights of two panels beside an edge; of all panels of a column their shares are their heights, so that the others stay. The last one
  // has all that is left below it from then on.
  share({ column, parts }, lower, y) {
    const upper = parts[parts.indexOf(lower) - 1];
    if ([upper, lower].some(part => part.classList.contains("folded"))) return;
    const heights = parts.map(part => part.getBoundingClientRect().height);
    parts.forEach((part, place) => (part.style.flexGrow = heights[place]));
    const last = parts.at(-1);
    last.style.flexGrow = column.getBoundingClientRect().bottom - last.getBoundingClientRect().top;
    column.classList.add("shared");
    const [top, bottom] = [upper.getBoundingClientRect().top, lower.getBoundingClientRect().bottom];
    const edge = Math.max(top + LEAST_HEIGHT, Math.min(bottom - LEAST_HEIGHT, y));
    upper.style.flexGrow = Math.round(edge - top);
    lower.style.flexGrow = Math.round(bottom - edge - byId(`${lower.id}-edge`).offsetHeight);
  }

  // ---- what is kept
  state() {
    const shares = Object.fromEntries(this.parts.map(part => [part.id, part.style.flexGrow]));
    const folded = this.parts.filter(part => part.classList.contains("folded")).map(part => part.id);
    return { left: byId("left").style.width, right: byId("right").style.width, lines: byId("line-box").style.height, shares, folded, log: !byId("line-box").hidden };
  }

  take({ left, right, lines, shares, folded, log = false }) {
    this.showLog(log);
    byId("left").style.width = left;
    byId("right").style.width = right;
    byId("line-box").style.height = lines;
    for (const { column, parts } of this.columns) column.classList.toggle("shared", parts.some(({ id }) => shares[id]));
    for (const part of this.parts) {
      part.style.flexGrow = shares[part.id] ?? "";
      part.classList.toggle("folded", folded.includes(part.id));
    }
  }
}
