// SPDX-License-Identifier: MIT OR Apache-2.0
// Prints how each of the lines of standard input, an array, is refused: [code, place, word, text], or [code] where none of its words is at fault;
// null where it is accepted.
//
//   node tests/module/word_faults.mjs
import { readFileSync } from "node:fs";
import { Editor, Module, Refused } from "../../js/roskevad.js";

const module = await Module.load();

function refusalOf(line) {
  const editor = new Editor(module);
  try {
    editor.step(line);
    return null;
  } catch (fault) {
    if (!(fault instanceof Refused)) {
      throw fault;
    }
    const { code, wordAtFault } = fault;
    return wordAtFault ? [code, wordAtFault.place, wordAtFault.word, wordAtFault.text] : [code];
  } finally {
    editor.close();
  }
}

console.log(JSON.stringify(JSON.parse(readFileSync(0, "utf8")).map(refusalOf)));
