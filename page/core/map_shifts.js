// SPDX-License-Identifier: MIT OR Apache-2.0
// By how many columns and rows lines move all that is in a map: those that give it another size, done, undone or done again. So what is seen
// stays where it is.
import { wordOf } from "./line_kinds.js";

const STAYS = [0, 0];

const sum = all => all.reduce(([x, y], [right, down]) => [x + right, y + down], STAYS);

// At which word of a line the columns stand, with the rows behind them.
const AT = { extend: 1, resize: 3 };

function ofLine(line) {
  const at = AT[wordOf(line)];
  return at ? line.split(" ", at + 2).slice(at).map(Number) : STAYS;
}

// Of an accepted line, by what is told of it, and by the lines of the steps of its document.
export function shiftOf(line, { outline, cells, became, before, index }, steps) {
  // Another size is told so.
  if (!outline || cells !== "all") return STAYS;
  if (became !== "turned") return ofLine(line);
  const lines = steps.linesOf(Math.min(before, index), Math.max(before, index)) ?? [];
  const sign = index < before ? -1 : 1;
  return sum(lines.flat().map(ofLine)).map(by => by * sign);
}
