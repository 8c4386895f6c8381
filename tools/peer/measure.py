#!/usr/bin/env python3
# SPDX-License-Identifier: MIT OR Apache-2.0
"""Runs sessions on `bin/tile_editor` and on the peer, compares all replies and all saved maps byte
for byte, and prints for each session what both take.

  tools/peer/measure.py [NAME ..]      all sessions, or these

  --runs N       how often each program runs a session; the best run counts (5)
  --seconds S    but no more runs of a session than take so long together (20)
  --count        instructions, too, by valgrind's callgrind
  --work DIR     the folder for sessions and maps; one in memory leaves the disk out (a new one)
  --peer FILE    the peer's program (tools/peer/out/peer)

Each row has ours, the peer's and the ratio, ours over the peer's. Milliseconds are of the clock;
`CPU` are those of the processor, in the program and in the kernel. The programs run in turn."""
import argparse
import array
import base64
import json
import random
import re
import resource
import shutil
import subprocess
import sys
import tempfile
import time
from pathlib import Path

HERE = Path(__file__).resolve().parent
OURS = HERE.parent.parent / 'bin' / 'tile_editor'
PEER = HERE / 'out' / 'peer'
TIME = '/usr/bin/time'
NEW = 'new m 256 256 16 16 t.tsj'
SIDE = 1024


# ---- sessions


def random_stamps(dice, count, side=256):
    for _ in range(count):
        x, y = dice.randrange(side), dice.randrange(side)
        yield f'stamp 1 {x} {y} 1 {dice.randrange(1, 1000)}'


def turns(count):
    for _ in range(count):
        yield 'undo'
        yield 'redo'


def many_stamps(dice):
    """200,000 stamps of one cell, undos and redos"""
    yield NEW
    shown = {}
    for _ in range(200000):
        place = dice.randrange(256), dice.randrange(256)
        value = dice.randrange(1, 1000)
        if shown.get(place) == value:
            value += 1  # each stamp changes its cell
        shown[place] = value
        yield f'stamp 1 {place[0]} {place[1]} 1 {value}'
    yield from ['undo'] * 200000
    yield from ['redo'] * 200000
    yield 'tile 1 20 30'


def deep_goto(dice):
    """100,000 stamps, then 40 `goto` over all"""
    yield NEW
    yield from random_stamps(dice, 100000)
    yield from ['goto 0', 'goto 100000'] * 20
    yield 'tile 1 20 30'


def queries(dice):
    """a fill, then 100,000 each of `tile`, `status`, `undotext`"""
    yield NEW
    yield 'fill 1 0 0 7'
    for _ in range(100000):
        yield f'tile 1 {dice.randrange(256)} {dice.randrange(256)}'
        yield 'status'
        yield 'undotext'


def macros(dice):
    """64 macros in one another, then 200 undos and redos of all"""
    yield NEW
    for depth in range(64):
        yield f'begin Depth {depth}'
        yield from random_stamps(dice, 79)
    for _ in range(64):
        yield from random_stamps(dice, 78)
        yield 'end'
    yield from turns(200)
    yield 'tile 1 20 30'


def limit(dice):
    """200,000 stamps at a limit of 1,000 steps, undos and redos"""
    yield NEW
    yield 'limit 1000'
    yield from random_stamps(dice, 200000)
    yield from ['undo'] * 1000
    yield from ['redo'] * 1000
    yield 'tile 1 20 30'


def fill_maze(dice):
    """31 fills among random walls, and 40 turns of the last"""
    yield 'new m 512 512 16 16 t.tsj'
    for y in range(512):
        row = ','.join('1' if dice.random() < 0.35 else '0' for _ in range(512))
        yield f'stamp 1 0 {y} 512 {row}'
    for value in range(2, 32):
        yield f'fill 1 {dice.randrange(512)} {dice.randrange(512)} {value}'
    yield 'fill 1 0 0 40'
    yield from turns(20)
    yield 'tile 1 250 250'


def big_region(dice):
    """selections of up to 131,072 runs, fills and stamps in them"""
    yield 'new m 512 512 16 16 t.tsj'
    yield 'select replace 0 0 512 512'
    for x in range(1, 512, 2):
        yield f'select subtract {x} 0 1 512'
    for value in range(1, 101):
        yield f'fill 1 {2 * dice.randrange(256)} {dice.randrange(512)} {value}'
    block = ','.join(str(1 + at % 9) for at in range(64 * 64))
    for _ in range(100):
        yield f'stamp 1 {dice.randrange(448)} {dice.randrange(448)} 64 {block}'
    for y in range(1, 512, 4):
        yield f'select subtract 0 {y} 512 1'
    for edge in range(64):
        yield f'select intersect {edge} {edge} {512 - 2 * edge} {512 - 2 * edge}'
    yield 'select none'
    for y in range(0, 512, 2):
        yield f'select add 0 {y} 512 1'
    for y in range(96):
        for x in range(y % 2, 96, 2):
            yield f'select add {300 + x} {y} 1 1'
    for value in range(200, 250):
        yield f'fill 1 {dice.randrange(512)} {2 * dice.randrange(256)} {value}'
    yield from ['goto 0', 'goto 100000'] * 3
    yield 'tile 1 100 100'


def big_fill(dice):
    """10 fills of 1,048,576 cells, and 400 turns of the last"""
    yield f'new m {SIDE} {SIDE} 16 16 t.tsj'
    for value in range(1, 11):
        yield f'fill 1 {dice.randrange(SIDE)} {dice.randrange(SIDE)} {value}'
    yield from turns(200)
    yield 'tile 1 500 500'


def many_docs(dice):
    """200 documents, then 100,000 times `use` and a stamp"""
    for number in range(200):
        yield f'new doc_{number} 32 32 16 16 t.tsj'
    for line in random_stamps(dice, 100000, 32):
        yield f'use doc_{dice.randrange(200)}'
        yield line
    yield 'list'


def strokes(dice, stamps, length):
    """Stamps of 3 by 3 cells along a random walk, so many of them in each stroke."""
    yield f'new m {SIDE} {SIDE} 16 16 t.tsj'
    x = y = SIDE // 2
    for number in range(stamps):
        x = min(max(x + dice.randrange(-2, 3), 0), SIDE - 3)
        y = min(max(y + dice.randrange(-2, 3), 0), SIDE - 3)
        first = 1 + number // length % 900
        plus = '+' if number % length else ''
        yield f'stamp{plus} 1 {x} {y} 3 ' + ','.join(str(first + at) for at in range(9))


def brush(dice):
    """1,000 strokes of 100 stamps of 3 by 3, undos and redos"""
    yield from strokes(dice, 100000, 100)
    yield from ['undo'] * 1000
    yield from ['redo'] * 1000
    yield 'tile 1 500 500'


def brush_long(dice):
    """one stroke of 100,000 stamps of 3 by 3, and 40 turns"""
    yield from strokes(dice, 100000, 100000)
    yield from turns(20)
    yield 'tile 1 500 500'


def objects(dice):
    """4,000 objects, 100,000 moves and 50,000 properties"""
    yield 'new m 64 64 16 16 t.tsj'
    yield 'layer add object Things'
    for number in range(4000):
        yield f'object add 2 {dice.randrange(1024)} {dice.randrange(1024)} 16 16 thing {number}'
    for _ in range(10000):
        number = dice.randrange(1, 4001)
        for plus in [''] + ['+'] * 9:
            x, y = dice.randrange(-1000, 5000), dice.randrange(-1000, 5000)
            yield f'object move{plus} {number} {x} {y}'
    for _ in range(5000):
        number = dice.randrange(1, 4001)
        for plus in [''] + ['+'] * 9:
            yield f'prop set{plus} object:{number} speed int {dice.randrange(1000000)}'
    yield 'goto 0'
    yield 'goto 1000000'
    yield from ['undo'] * 5000
    yield from ['redo'] * 5000
    yield 'status'


def open_save(kind):
    yield f'open m big_{kind}.tmj'
    yield 'tile 8 100 900'
    yield f'save saved_{kind}.tmj'
    yield 'discard m'


def open_save_array(_):
    """8 layers of 1,048,576 cells as numbers, opened, saved"""
    yield from open_save('array')


def open_save_base64(_):
    """the same in base64"""
    yield from open_save('base64')


def startup(_):
    """one line, `status`"""
    yield 'status'


SESSIONS = (
    many_stamps,
    deep_goto,
    queries,
    macros,
    limit,
    fill_maze,
    big_region,
    big_fill,
    many_docs,
    brush,
    brush_long,
    objects,
    open_save_array,
    open_save_base64,
    startup,
)


# ---- maps


def a_layer(dice, number, kind):
    cells = array.array('I', (dice.randrange(1, 1000) for _ in range(SIDE * SIDE)))
    layer = {'id': number, 'name': f'L{number}', 'type': 'tilelayer', 'opacity': 1, 'visible': True}
    layer |= {'width': SIDE, 'height': SIDE, 'x': 0, 'y': 0, 'data': cells.tolist()}
    if kind == 'base64':
        layer |= {'data': base64.b64encode(cells.tobytes()).decode(), 'encoding': 'base64'}
    return layer


def large_map(kind):
    """A map of 8 layers, as the editor writes it."""
    dice = random.Random(8)
    tree = {
        'type': 'map',
        'version': '1.10',
        'infinite': False,
        'orientation': 'orthogonal',
        'renderorder': 'right-down',
        'width': SIDE,
        'height': SIDE,
        'tilewidth': 16,
        'tileheight': 16,
        'nextlayerid': 9,
        'nextobjectid': 1,
        'layers': [a_layer(dice, number, kind) for number in range(1, 9)],
        'tilesets': [{'firstgid': 1, 'source': 't.tsj'}],
    }
    return json.dumps(tree, separators=(',', ':'), sort_keys=True)


# ---- runs


def processor_time():
    """The seconds that all programs run from here have taken, in the kernel, too."""
    used = resource.getrusage(resource.RUSAGE_CHILDREN)
    return used.ru_utime + used.ru_stime


class Side:
    """One of the two programs, with a folder of its own for maps and replies."""

    def __init__(self, program, folder):
        self.program = program
        self.maps = folder / 'maps'
        self.replies = folder / 'replies.txt'
        self.maps.mkdir(parents=True, exist_ok=True)

    def clear(self):
        for path in self.maps.iterdir():
            path.unlink()

    def run(self, session, *before):
        """Runs the program behind these words, and answers what it says on standard error."""
        words = [*before, str(self.program), '--folder', str(self.maps)]
        with open(session, 'rb') as lines, open(self.replies, 'wb') as replies:
            done = subprocess.run(words, stdin=lines, stdout=replies, stderr=subprocess.PIPE)
        if done.returncode != 0:
            sys.exit(f'{self.program}: {session.name}: {done.stderr.decode()[-500:]}')
        return done.stderr.decode()

    def timed(self, session):
        """The milliseconds of the clock and of the processor."""
        used = processor_time()
        start = time.perf_counter()
        self.run(session)
        clock = time.perf_counter() - start
        return 1000 * clock, 1000 * (processor_time() - used)

    def peak(self, session):
        """The peak of its memory in MiB."""
        return int(self.run(session, TIME, '-f', '%M').split()[-1]) / 1024

    def instructions(self, session):
        """How many million instructions it takes."""
        tool = ('valgrind', '--tool=callgrind', '--callgrind-out-file=/dev/null')
        told = self.run(session, *tool)
        return int(re.search(r'Collected : (\d+)', told).group(1)) / 1e6


def best_times(sides, session, options):
    """The shortest times of each side: of the clock, and of the processor."""
    best = [[float('inf')] * 2 for _ in sides]
    start = time.perf_counter()
    for number in range(options.runs):
        if number and time.perf_counter() - start > options.seconds:
            break
        for at, side in enumerate(sides):
            best[at] = [min(pair) for pair in zip(best[at], side.timed(session))]
    return [list(pair) for pair in zip(*best)]


def fault_of(sides):
    """What the two sides answered or saved otherwise, or None."""
    ours, peer = sides
    given, wanted = (side.replies.read_bytes().split(b'\n') for side in sides)
    if given != wanted:
        pairs = enumerate(zip(given, wanted), 1)
        at, pair = next(((at, pair) for at, pair in pairs if pair[0] != pair[1]), (0, None))
        return f'reply {at} of {len(given)} and {len(wanted)}: {pair}'
    for path in ours.maps.iterdir():
        if path.read_bytes() != (peer.maps / path.name).read_bytes():
            return f'{path.name} is not the same'
    return None


def prepare(name, make, sides, work):
    """Writes the session, and for each side the map that it opens."""
    session = work / f'{name}.txt'
    lines = list(make(random.Random(name)))
    session.write_text('\n'.join(lines) + '\n')
    kind = name.removeprefix('open_save_')
    if kind != name:
        text = large_map(kind)
        for side in sides:
            (side.maps / f'big_{kind}.tmj').write_text(text)
    return session


def row_of(name, make, sides, work, options):
    session = prepare(name, make, sides, work)
    clock, processor = best_times(sides, session, options)
    fault = fault_of(sides)
    peaks = [side.peak(session) for side in sides] if Path(TIME).exists() else None
    counts = [side.instructions(session) for side in sides] if options.count else None
    for side in sides:
        side.clear()
    cells = [shown(pair) for pair in (clock, processor, peaks, counts) if pair]
    return f'| {make.__doc__} | ' + ' | '.join(cells) + ' |', fault


def shown(pair):
    ours, peer = (f'{number:,.0f}' if number >= 100 else f'{number:.3g}' for number in pair)
    return f'{ours}/{peer} | {pair[0] / pair[1]:.2f}'


def options_of(words):
    parser = argparse.ArgumentParser(usage='tools/peer/measure.py [options] [NAME ..]')
    parser.add_argument('names', nargs='*')
    parser.add_argument('--runs', type=int, default=5)
    parser.add_argument('--seconds', type=float, default=20)
    parser.add_argument('--count', action='store_true')
    parser.add_argument('--work', type=Path)
    parser.add_argument('--peer', type=Path, default=PEER)
    return parser.parse_args(words)


def main():
    options = options_of(sys.argv[1:])
    chosen = [make for make in SESSIONS if not options.names or make.__name__ in options.names]
    work = options.work or Path(tempfile.mkdtemp())
    sides = [Side(OURS, work / 'ours'), Side(options.peer, work / 'peer')]
    columns = ['Milliseconds', 'CPU', 'Peak MiB', 'Million instructions']
    columns = columns[: 4 if options.count else 3]
    print('| Session |' + ''.join(f' {column} | Ratio |' for column in columns))
    print('|---|' + '---|---|' * len(columns))
    faults = []
    for make in chosen:
        row, fault = row_of(make.__name__, make, sides, work, options)
        print(row, flush=True)
        faults += [f'{make.__name__}: {fault}'] if fault else []
    if not options.work:
        shutil.rmtree(work)
    sys.exit('\n'.join(faults) or None)


if __name__ == '__main__':
    main()
