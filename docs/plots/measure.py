#!/usr/bin/env python3
# SPDX-License-Identifier: MIT OR Apache-2.0
"""Measures how the cost of a line grows, and writes a table for each series beside this file.

    docs/plots/measure.py [NAME ..]        all series, or these
    docs/plots/draw.py                     the plots of all tables

It wants valgrind. Each figure is the difference of two sessions, with the lines that are measured and without them,
in instructions of the whole process by callgrind. All together it takes some ten minutes.
"""
import csv
import json
import random
import re
import subprocess
import sys
import tempfile
import time
from pathlib import Path

HERE = Path(__file__).resolve().parent
PROGRAM = HERE.parent.parent / 'bin' / 'tile_editor'


def instructions(lines, folder):
    """How many instructions the program takes for the lines, and the bytes of its replies."""
    text = '\n'.join(lines) + '\n'
    command = ['valgrind', '--tool=callgrind', '--callgrind-out-file=/dev/null', str(PROGRAM), '--folder', folder]
    done = subprocess.run(command, input=text.encode(), capture_output=True, check=True)
    refused = [line for line in done.stdout.splitlines() if line.startswith(b'no ')]
    if refused:
        raise SystemExit(f'a line is refused: {refused[0].decode()}')
    return int(re.search(rb'Collected : (\d+)', done.stderr).group(1))


def seconds(lines, folder):
    """How long the program takes for the lines, the shortest of three runs."""
    text = ('\n'.join(lines) + '\n').encode()
    times = []
    for _ in range(3):
        start = time.perf_counter()
        subprocess.run([str(PROGRAM), '--folder', folder], input=text, capture_output=True, check=True)
        times.append(time.perf_counter() - start)
    return min(times)


def a_line(before, measured, folder):
    """The instructions of one of the measured lines, behind the lines before."""
    return (instructions(before + measured, folder) - instructions(before, folder)) / len(measured)


def random_stamps(count, layer=1):
    dice = random.Random(count)
    return [f'stamp {layer} {dice.randrange(256)} {dice.randrange(256)} 1 {dice.randrange(1, 1000)}' for _ in range(count)]


NEW = 'new m 256 256 16 16 t.tsj'


def stamps(folder):
    for count in (1_000, 10_000, 100_000, 1_000_000):
        yield count, a_line([NEW], random_stamps(count), folder)


def documents(folder):
    dice = random.Random(1)
    for count in (1, 10, 100, 1_000):
        before = [f'new m{at} 16 16 16 16 t.tsj' for at in range(count)]
        uses = [f'use m{dice.randrange(count)}' for _ in range(10_000)]
        yield count, a_line(before, uses, folder)


def closing(folder):
    for count in (10, 100, 1_000, 4_000):
        before = [f'new m{at} 1 1 16 16 t.tsj' for at in range(count)]
        closes = [f'close m{at}' for at in range(count)]
        yield count, a_line(before, closes, folder), a_line(before, closes[::-1], folder)


def tilesets(folder):
    for count in (1, 16, 256):
        before = [NEW] + [f'tileset add {at * 1_000 + 1} t{at}.tsj' for at in range(1, count)]
        values = ','.join(str(at % 900 + 1) for at in range(64 * 64))
        yield count, a_line(before, [f'stamp 1 {at} 0 64 {values}' for at in range(5)], folder)


def rows_and_columns(folder):
    """Fills of a row and of a column of free cells, each one cell wide, on a map of as many cells a side."""
    for side in (64, 256, 1024):
        found = [side]
        for which in (f'select replace 0 5 {side} 1', f'select replace 5 0 1 {side}'):
            before = [f'new m {side} {side} 16 16 t.tsj', which]
            found.append(a_line(before, [f'fill 1 5 5 {at % 9 + 1}' for at in range(20)], folder))
        yield tuple(found)


def selections(folder):
    for count in (10, 100, 1_000, 10_000):
        cells = [(2 * (at % 128), 2 * (at // 128)) for at in range(count)]
        yield count, a_line([NEW], [f'select add {x} {y} 1 1' for x, y in cells], folder)


def layers(folder):
    for count in (1, 4, 16, 64, 256):
        before = [NEW] + [f'layer add tile l{at}' for at in range(2, count + 1)]
        yield count, a_line(before, random_stamps(10_000, count), folder)


def cells_of_a_fill(folder):
    for side in (1, 4, 16, 64, 256, 1024):
        before = [f'new m {side} {side} 16 16 t.tsj']
        yield side * side, a_line(before, ['fill 1 0 0 5'], folder), a_line(before + ['fill 1 0 0 5'], ['undo', 'redo'] * 5, folder)


def objects(folder):
    dice = random.Random(2)
    for count in (1, 16, 256, 4_096):
        before = [NEW, 'layer add object o'] + [f'object add 2 0 0 16 16 o{at}' for at in range(count)]
        which = {
            'last': lambda: count,
            'first': lambda: 1,
            'random': lambda: dice.randrange(1, count + 1),
        }
        row = [count]
        for choose in which.values():
            moves = [f'object move {choose()} {at % 200 + 1} {at % 99 + 1}' for at in range(1_000)]
            row.append(a_line(before, moves, folder))
        yield tuple(row)


def merges(folder):
    for count in (100, 1_000, 10_000, 100_000):
        places = [(at % 1024, at // 1024) for at in range(count)]
        stamps = [f'stamp+ 1 {x} {y} 1 7' for x, y in places]
        begun = ['new m 1024 1024 16 16 t.tsj', 'stamp 1 1023 1023 1 7']
        # A new cell stands behind all others but one, or in front of all others, which make way for it.
        yield count, seconds(begun + stamps, folder) * 1_000, seconds(begun + stamps[::-1], folder) * 1_000


def bytes_of_a_map(folder):
    for side in (16, 64, 256, 1024):
        source, copy = Path(folder) / 'large.tmj', Path(folder) / 'copy.tmj'
        write_map(source, side)
        opened = instructions(['open m large.tmj', 'discard m'], folder) - instructions(['status'], folder)
        saved = instructions(['open m large.tmj', 'save copy.tmj'], folder) - instructions(['open m large.tmj'], folder)
        read, written = source.stat().st_size, copy.stat().st_size
        yield read, opened / read, saved / written


def write_map(path, side):
    """Writes a map without spaces, as the editor and Tiled's minimized export do."""
    dice = random.Random(side)
    cells = [dice.randrange(1, 1_000) for _ in range(side * side)]
    layer = {'type': 'tilelayer', 'id': 1, 'name': 'l', 'visible': True, 'opacity': 1, 'x': 0, 'y': 0,
             'width': side, 'height': side, 'data': cells}
    tree = {
        'type': 'map', 'version': '1.10', 'tiledversion': '1.10.2', 'orientation': 'orthogonal', 'renderorder': 'right-down',
        'compressionlevel': -1, 'infinite': False, 'width': side, 'height': side, 'tilewidth': 16, 'tileheight': 16,
        'nextlayerid': 2, 'nextobjectid': 1, 'layers': [layer], 'tilesets': [{'firstgid': 1, 'source': 't.tsj'}]}
    path.write_text(json.dumps(tree, separators=(',', ':')))


# The name of a series, its function, and the heads of its table.
SERIES = {
    'stamps': (stamps, ['stamps', 'instructions a stamp']),
    'documents': (documents, ['open documents', 'instructions a use']),
    'closing': (closing, ['open documents', 'closed from the first', 'closed from the last']),
    'layers': (layers, ['layers', 'instructions a stamp']),
    'tilesets': (tilesets, ['tilesets', 'a stamp of 64 by 64']),
    'fill': (cells_of_a_fill, ['cells', 'instructions a fill', 'instructions a turn']),
    'columns': (rows_and_columns, ['cells a side', 'a fill of a row', 'a fill of a column']),
    'selections': (selections, ['cells chosen', 'a select of one more']),
    'objects': (objects, ['objects', 'a move of the last', 'a move of the first', 'a move of a random one']),
    'merges': (merges, ['merges', 'ms, downwards', 'ms, upwards']),
    'map': (bytes_of_a_map, ['bytes', 'instructions a byte read', 'instructions a byte written']),
}


def main():
    for name in sys.argv[1:] or SERIES:
        function, heads = SERIES[name]
        with tempfile.TemporaryDirectory() as folder, open(HERE / f'{name}.csv', 'w', newline='') as out:
            table = csv.writer(out, lineterminator='\n')
            table.writerow(heads)
            for row in function(folder):
                print(name, *(f'{value:.4g}' for value in row), flush=True)
                table.writerow(f'{value:.4g}' if isinstance(value, float) else value for value in row)


if __name__ == '__main__':
    main()
