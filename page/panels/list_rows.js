// SPDX-License-Identifier: MIT OR Apache-2.0
// Puts rows into a list in this order. Those that are there already stay, so that what goes on in them goes on: a double click, a drag. What
// is not wanted any more goes first: else each row behind it would move.
export function putRows(list, rows) {
  const wanted = new Set(rows);
  for (const row of [...list.children]) if (!wanted.has(row)) row.remove();
  let next = list.firstElementChild;
  for (const row of rows) {
    if (row === next) next = next.nextElementSibling;
    else list.insertBefore(row, next);
  }
}

// How many rows a panel has room for at most, where the column has: they fill the highest window.
const MOST_IN_SIGHT = 100;

// Has the box of a list, as style.css has it, as much room as so many rows take, where the column has it. All below the box takes part in what
// is set, so it is set where it is another one.
export function roomFor(list, count) {
  const rows = String(Math.min(count, MOST_IN_SIGHT));
  const { style } = list.closest(".list-box");
  if (style.getPropertyValue("--rows") !== rows) style.setProperty("--rows", rows);
}
