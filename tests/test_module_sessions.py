# SPDX-License-Identifier: MIT OR Apache-2.0
"""Runs the session files of `sessions/` on the module in `js/` in Node, line by line and many lines in
a call: it must give the replies and the files that stand there. Besides, it must do what the program does with each example map, with
lines by chance, and with a map of 1,048,576 cells."""
import random

from lib.cases import Case, check_each
from lib.maps import map_of, packed, text_of, tiles
from lib.places import example_maps
from lib.sessions import Run, all_runs, heard
from module.lines import chance_lines, example_lines
from module.node import ran
from module.server import Server

IS_LONG = True
PACKAGES = ('nodejs',)
SEEDS, LINES = (1, 2, 3, 4), 10_000
SIDE = 1024


def check_in_node(runs, way):
    """Each run comes out on the module as it must."""
    with Server(runs) as server:
        ran('run_sessions.mjs', server.address, way)
        cases = [Case(run.name, number, None) for number, run in enumerate(runs)]
        check_each(cases, lambda case: server.fault_of(case.given))


class Beside(Run):
    """A run that must come out as the program does it."""

    def __init__(self, name, before, lines):
        super().__init__(name, before, ''.join(f'{line}\n' for line in lines).encode())
        done, self.after = heard(self.session, before)
        assert done.returncode == 0, done.stderr[:300]
        self.told = done.stdout

    @property
    def replies(self):
        return self.told


def runs_beside():
    """The example maps, lines by chance, and a large map, as the program does them."""
    maps = example_maps()
    runs = [Beside(name, {name: data}, example_lines(name)) for name, data in maps.items()]
    for seed in SEEDS:
        chosen = random.Random(f'module {seed}')
        runs.append(Beside(f'seed {seed}', maps, chance_lines(chosen, sorted(maps), LINES)))
    return [*runs, *(large_run(is_packed) for is_packed in (True, False))]


def large_run(is_packed):
    """A map of 1,048,576 cells: opened, filled, undone and saved."""
    cells = [1 + (at * 2654435761 >> 7) % 900 for at in range(SIDE * SIDE)]
    for at in range(SIDE, 2 * SIDE):
        cells[at] = 7
    data = {'data': packed(cells), 'encoding': 'base64'} if is_packed else {'data': cells}
    layer = tiles(1, SIDE, SIDE, **data)
    lines = ['open m m.tmj', 'fill 1 0 1 9', 'fill 1 0 1 10', 'save filled.tmj', 'goto 0']
    lines += ['save back.tmj', f'erase 1 0 0 {SIDE} {SIDE}', 'fill 1 5 5 3', 'undo', 'redo']
    lines += ['save whole.tmj', 'goto 0', 'show', 'status']
    name = f'1,048,576 cells as {"base64" if is_packed else "numbers"}'
    return Beside(name, {'m.tmj': text_of(map_of(layer, width=SIDE, height=SIDE))}, lines)


def test_sessions_by_step():
    check_in_node(all_runs(), 'step')


def test_sessions_by_run_bytes():
    check_in_node(all_runs(), 'lines')


def test_beside_the_program():
    check_in_node(runs_beside(), 'step')
