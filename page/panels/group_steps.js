// SPDX-License-Identifier: MIT OR Apache-2.0
// Asks how many of the last steps become one, and with which name.
import { KINDS } from "../core/kinds.js";
import { ask, destroying } from "./dom.js";

const GO_ON = destroying("Group them all the same");

// Groups steps; `count` is proposed, at least two where there are so many.
export async function groupSteps(bench, count = Math.min(2, bench.editor.stand().index)) {
  const { editor, macros } = bench;
  const { index, count: all } = editor.stand();
  const undone = all - index;
  const words = undone === 1 ? "1 step is undone, and cannot be done again then." : `${undone} steps are undone, and cannot be done again then.`;
  if (undone && !macros.whyNot(1) && !(await ask(words, [], [GO_ON]))) return null;
  const take = typed => {
    const why = macros.whyNot(Number(typed.count));
    if (why) return { words: `${why}.`, field: "count" };
    const done = macros.group(Number(typed.count), typed.name);
    return done.isAccepted ? null : { words: "These steps were not grouped: all is as it was." };
  };
  const fields = [
    { name: "count", label: "How many of the last steps", type: "number", value: count, min: 1, kind: KINDS.cells },
    { name: "name", label: "Name", value: document.getElementById("macro-name").value, kind: KINDS.macro },
  ];
  return ask("Group the last steps into one", fields, ["Group"], take);
}
