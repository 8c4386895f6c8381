# SPDX-License-Identifier: MIT OR Apache-2.0
"""Runs the program on 400 small random maps beside the plain model of tests/lib/model.py, which
keeps whole maps and a set of selected cells. Each map gets 30 selections, fills, stamps, erases and
resizes, most of them partly outside it. No line tells which cells are selected; so behind each
select and each resize a stamp over the whole map shows them, and is undone."""
import random

from lib.model import Play
from lib.sessions import check_together

MAPS, STEPS, SEED = 400, 30, 20261125


class Drawing(Play):
    """A map that is drawn on by chance."""

    def __init__(self, number, chosen):
        super().__init__(f'map {number}')
        self.chosen = chosen
        self.hear(f'new m{number} {chosen.randint(1, 7)} {chosen.randint(1, 6)} 1 1 s')
        for _ in range(STEPS):
            self.edit()
        self.hear(f'discard m{number}')

    def sides(self):
        tree = self.document.tree
        return tree['width'], tree['height']

    def area(self):
        chosen = self.chosen
        return (
            chosen.randint(-3, 7),
            chosen.randint(-3, 6),
            chosen.randint(0, 8),
            chosen.randint(0, 7),
        )

    def edit(self):
        chosen = self.chosen
        kind = chosen.choice(
            ('select', 'select', 'fill', 'fill', 'stamp', 'stamp', 'erase', 'resize')
        )
        self.hear(getattr(self, kind)())
        if kind in ('select', 'resize'):
            self.look_at_selection()
        self.hear('show')

    def select(self):
        mode = self.chosen.choice(('replace', 'add', 'add', 'subtract', 'intersect'))
        return 'select {} {} {} {} {}'.format(mode, *self.area())

    def fill(self):
        width, height = self.sides()
        chosen = self.chosen
        return f'fill 1 {chosen.randrange(width)} {chosen.randrange(height)} {chosen.randint(0, 2)}'

    def stamp(self):
        x, y, width, height = self.area()
        values = [self.chosen.randint(0, 2) for _ in range(max(width, 1) * max(height, 1))]
        return f'stamp 1 {x} {y} {max(width, 1)} {",".join(map(str, values))}'

    def erase(self):
        return 'erase 1 {} {} {} {}'.format(*self.area())

    def resize(self):
        chosen = self.chosen
        size = chosen.randint(1, 7), chosen.randint(1, 6)
        return 'resize {} {} {} {}'.format(*size, chosen.randint(-4, 4), chosen.randint(-3, 3))

    def look_at_selection(self):
        """A stamp over the whole map, with a value that nothing else has, and its undo."""
        width, height = self.sides()
        self.hear(f'stamp 1 0 0 {width} {",".join(["9"] * (width * height))}', 'show', 'undo')


def drawings():
    chosen = random.Random(SEED)
    return [Drawing(number, chosen) for number in range(MAPS)]


def test_maps_drawn_by_chance():
    check_together(drawings())
