# SPDX-License-Identifier: MIT OR Apache-2.0
"""Makes 3,000 pairs of edits and 415 strokes of stamps and erases by chance, with clean marks,
undos, limits and macros between them, and compares the replies of the program with those of the
plain model of tests/lib/model.py; and five strokes of up to 20,000 lines, whose cells it compares
with a plain list. The model keeps whole maps before and after each step, where the program walks
two lists of cells side by side."""
import json
import random
from dataclasses import dataclass

from lib.cases import CORES, Case, check_each
from lib.maps import cells_of, layers_in
from lib.model import Play
from lib.sessions import check_together, heard

SEED = 20261125
FLAGGED = 0x80000001
# How many strokes the program hears in one run.
STROKES_OF_RUN = 250


class Stroke(Play):
    """A document of its own, with two tile layers. `side` is the greatest width and height of what
    a line paints, and `tiles` are the values that it paints with."""

    def __init__(self, chosen, name, width, height, side, tiles, limit=0):
        super().__init__(name)
        self.chosen, self.width, self.height, self.side, self.tiles = (
            chosen,
            width,
            height,
            side,
            tiles,
        )
        self.hear(
            f'new a {width} {height} 16 16 t.tsj', 'layer add tile Top', 'clear', f'limit {limit}'
        )

    def block(self):
        """The upper left of what a line paints, its width and its height: it may stand over the
        edges of the map."""
        width, height = self.chosen.randint(1, self.side), self.chosen.randint(1, self.side)
        x = self.chosen.randint(-(width // 2), self.width - 1)
        y = self.chosen.randint(-(height // 2), self.height - 1)
        return x, y, width, height

    def stamp(self, layer, follows, x, y, width, tiles):
        self.hear(f'stamp{"+" * follows} {layer} {x} {y} {width} {",".join(map(str, tiles))}')

    def stamp_any(self, layer, follows):
        x, y, width, height = self.block()
        self.stamp(layer, follows, x, y, width, self.chosen.choices(self.tiles, k=width * height))

    def stamp_whole(self):
        """Stamps each cell of the map."""
        solid = [tile for tile in self.tiles if tile]
        self.stamp(
            1, False, 0, 0, self.width, self.chosen.choices(solid, k=self.width * self.height)
        )

    def erase(self, layer, follows):
        self.hear(f'erase{"+" * follows} {layer} {{}} {{}} {{}} {{}}'.format(*self.block()))

    def last_stamp(self):
        """The layer of the last step and the cells that it changed, with the values before, where
        the step is a stamp."""
        steps = self.document.inner_steps()
        words, values = steps[-1].tag or (None, ()) if steps else (None, ())
        if words != 'stamp':
            return None
        before, after = (
            self.cells_in(state, *values) for state in (steps[-1].before, steps[-1].after)
        )
        changed = {
            (at % self.width, at // self.width): old
            for at, (old, new) in enumerate(zip(before, after))
            if old != new
        }
        return (*values, changed)

    @staticmethod
    def cells_in(state, number):
        return next(
            cells_of(layer) for layer in layers_in(state.tree()['layers']) if layer['id'] == number
        )

    def stamp_back(self, layer, changed):
        """Stamps what stood in the cells of a change, in some or in all of them."""
        part = self.chosen.choice([0.5, 0.9, 1])
        before = {cell: value for cell, value in changed.items() if self.chosen.random() < part}
        columns, rows = {x for x, _ in changed}, {y for _, y in changed}
        x, y, width = min(columns), min(rows), max(columns) - min(columns) + 1
        self.stamp(
            layer,
            True,
            x,
            y,
            width,
            [
                before.get((column, row), 0)
                for row in range(y, max(rows) + 1)
                for column in range(x, x + width)
            ],
        )

    def paint(self, plain=False):
        """An edit of any kind, or one that goes back to what stood there before the last step."""
        last = None if plain else self.last_stamp()
        if last and self.chosen.random() < 0.25:
            self.stamp_back(*last)
            return
        follows = not plain and self.chosen.random() < 0.75
        edit = self.erase if self.chosen.random() < 0.2 else self.stamp_any
        edit(1 if self.chosen.random() < 0.85 else 2, follows)

    def between(self):
        """A line that is no edit, where the rules take it."""
        document = self.document
        count = len(document.steps)
        ways = ['dirty']
        if document.levels:
            ways += ['end'] * 4
        else:
            ways += (
                ['clean'] * 2
                + ['goto']
                + ['undo'] * 4 * (document.index > 0)
                + ['redo'] * 2 * (document.index < count)
            )
        if len(document.levels) < 3:
            ways.append('begin')
        way = self.chosen.choice(ways)
        self.hear(
            {'goto': f'goto {self.chosen.randint(0, count)}', 'begin': 'begin M'}.get(way, way)
        )

    def finish(self):
        """Ends the macros, and looks at the document at each index, downwards and then upwards."""
        while self.document.levels:
            self.hear('end')
        count = len(self.document.steps)
        for index in [*range(count, -1, -1), *range(count + 1)]:
            self.hear(f'goto {index}', 'show')
        self.hear('discard a')
        return self


def pair(chosen, at):
    """Two edits over a small map, the second of which mostly joins the first."""
    width, height = chosen.randint(1, 5), chosen.randint(1, 4)
    stroke = Stroke(chosen, f'pair {at}', width, height, chosen.randint(1, 4), (0, 1, FLAGGED, 2))
    if chosen.random() < 0.7:
        stroke.stamp_whole()
    stroke.paint(plain=True)
    stroke.paint()
    return stroke.finish()


def small_stroke(chosen, at):
    """Many lines over a small map, some of them no edits."""
    width, height = chosen.randint(1, 6), chosen.randint(1, 5)
    tiles = chosen.choice([(1, 2), (0, 1, 2), (0, 1, 2, 3, FLAGGED)])
    stroke = Stroke(
        chosen,
        f'stroke {at}',
        width,
        height,
        chosen.randint(1, 3),
        tiles,
        chosen.choice([0, 0, 1, 2, 5]),
    )
    stroke.stamp_whole()
    for _ in range(chosen.randint(5, 60)):
        if chosen.random() < 0.7:
            stroke.paint()
        else:
            stroke.between()
        stroke.hear('show')
    return stroke.finish()


def large_stroke(chosen, at):
    """Blocks of up to 64 by 64 cells over a map of up to 100 by 100."""
    width, height = chosen.randint(40, 100), chosen.randint(40, 100)
    stroke = Stroke(
        chosen, f'large stroke {at}', width, height, 64, chosen.choice([(0, 7), range(10)])
    )
    if chosen.random() < 0.7:
        stroke.stamp_whole()
    for _ in range(12):
        stroke.paint()
    stroke.hear('show')
    return stroke.finish()


def check_strokes(kind, count):
    chosen = random.Random(f'{SEED} {kind.__name__}')
    strokes = [kind(chosen, at) for at in range(1, count + 1)]
    check_together(strokes, STROKES_OF_RUN)


def test_pairs_of_edits():
    check_strokes(pair, 3000)


def test_strokes_on_small_maps():
    check_strokes(small_stroke, 400)


def test_strokes_on_large_maps():
    check_strokes(large_stroke, 15)


# How wide and high the map of a long stroke is.
LONG_SIDE = 256


@dataclass(frozen=True)
class LongStroke:
    """So many stamps with these values, or erases where there are none, of up to so many columns
    and rows. Each stands near the one before it."""

    name: str
    lines: int
    side: int
    tiles: tuple


# Where the values are those of the map before, many cells come back to what they were.
LONG_STROKES = [
    LongStroke('stamps of one value', 20000, 3, (7,)),
    LongStroke('stamps of the values before', 20000, 3, (0, 1, 2)),
    LongStroke('large stamps of one value', 1000, 40, (7,)),
    LongStroke('large stamps of the values before', 1000, 40, (0, 1, 2)),
    LongStroke('erases', 20000, 3, ()),
]


def made_stroke(stroke):
    """The lines of a stroke, and the cells before and after it. Its first line changes the first
    cell, which no other changes, so the stroke never vanishes."""
    chosen = random.Random(f'{SEED} {stroke.name}')
    cells = chosen.choices((0, 1, 2), k=LONG_SIDE * LONG_SIDE)
    cells[0] = 1
    before = list(cells)
    cells[0] = 3 if stroke.tiles else 0
    lines = ['stamp 1 0 0 1 3' if stroke.tiles else 'erase 1 0 0 1 1']
    x = y = LONG_SIDE // 2
    for _ in range(stroke.lines):
        x = min(max(x + chosen.randint(-2, 2), 1), LONG_SIDE - 1)
        y = min(max(y + chosen.randint(-2, 2), 1), LONG_SIDE - 1)
        width, height = chosen.randint(1, stroke.side), chosen.randint(1, stroke.side)
        block = chosen.choices(stroke.tiles, k=width * height) if stroke.tiles else None
        for at in range(width * height):
            column, row = x + at % width, y + at // width
            if column < LONG_SIDE and row < LONG_SIDE and (block is None or block[at]):
                cells[row * LONG_SIDE + column] = block[at] if block else 0
        if block:
            lines.append(f'stamp+ 1 {x} {y} {width} {",".join(map(str, block))}')
        else:
            lines.append(f'erase+ 1 {x} {y} {width} {height}')
    return lines, before, cells


def saved_cells(data):
    return cells_of(next(layers_in(json.loads(data)['layers'])))


def fault_of_long_stroke(case):
    lines, before, after = made_stroke(case.given)
    rows = [before[at : at + LONG_SIDE] for at in range(0, len(before), LONG_SIDE)]
    session = [
        f'new a {LONG_SIDE} {LONG_SIDE} 16 16 t.tsj',
        *(f'stamp 1 0 {y} {LONG_SIDE} {",".join(map(str, row))}' for y, row in enumerate(rows)),
        'clear',
        *lines,
        'save whole.tmj',
        'undo',
        'save undone.tmj',
        'redo',
        'save redone.tmj',
    ]
    done, files = heard(''.join(f'{line}\n' for line in session).encode(), {})
    replies = done.stdout.decode().splitlines()[LONG_SIDE + 2 :]
    if done.returncode != 0 or set(replies[: len(lines)]) != {'ok 1/1 dirty 0'}:
        return f'status {done.returncode}, replies {sorted(set(replies[: len(lines)]))}'
    if replies[len(lines) + 1 :: 2] != ['ok 0/1 dirty 0', 'ok 1/1 dirty 0']:
        return f'undo and redo are answered by {replies[len(lines) + 1 :: 2]}'
    wanted = {'whole.tmj': after, 'undone.tmj': before, 'redone.tmj': after}
    wrong = [name for name, cells in wanted.items() if saved_cells(files[name]) != cells]
    return f'wrong cells are in {wrong}' if wrong else None


def test_long_strokes():
    cases = [Case(stroke.name, stroke, None) for stroke in LONG_STROKES]
    check_each(cases, fault_of_long_stroke, CORES)
