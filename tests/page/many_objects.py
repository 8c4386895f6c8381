# SPDX-License-Identifier: MIT OR Apache-2.0
"""Maps with thousands of objects, and how often the page calls the library, and by which lines."""
import json

from lib.maps import layers_in, thing

COLUMNS = 80
FIRST = 10
# Counts the calls of the library by their names, and keeps what lines are done and which cells are read, until it is called again.
COUNTED = '''
const {editor} = roskevad.editor, {calls} = editor._module;
globalThis.counted?.end();
const [counts, lines, parts, kept, step] = [{}, [], [], {...calls}, editor.step];
for (const [name, call] of Object.entries(kept)) {
  calls[name] = (...words) => {
    counts[name] = (counts[name] ?? 0) + 1;
    if (name === "cells") parts.push(words.slice(1, 6));
    return call(...words);
  };
}
editor.step = line => {
  lines.push(line);
  return step.call(editor, line);
};
const end = () => {
  Object.assign(calls, kept);
  delete editor.step;
};
globalThis.counted = {counts, lines, parts, end};'''


def crates(folder, count, **members):
    """Writes `crates.tmj`: the town with so many objects in the layer *Things*, and gives their ids."""
    town = json.loads((folder / 'town.tmj').read_text())
    layer = next(each for each in layers_in(town['layers']) if each['name'] == 'Things')
    layer['objects'] = [
        thing(FIRST + at, name=f'crate {at}', x=at % COLUMNS * 8, y=10 + at // COLUMNS * 9, width=6, height=6, **members)
        for at in range(count)
    ]
    town['nextobjectid'] = FIRST + count
    (folder / 'crates.tmj').write_text(json.dumps(town))
    return range(FIRST, FIRST + count)


def count_calls(page):
    page.js(COUNTED)


def counted(page):
    """How often each call of the library was made since, and the lines that were done."""
    return page.js('counted.end(); return [counted.counts, counted.lines]')


def parts_read(page):
    """The rectangles of cells that were read since: layer, column, row, width and height of each."""
    return page.js('return counted.parts')
