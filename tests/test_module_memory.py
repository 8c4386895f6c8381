# SPDX-License-Identifier: MIT OR Apache-2.0
"""Sees that the memory of the module grows by at most 1.3 times as much in a session as the library
takes of the heap, and that 10,000,000 lines take no more than 1,000,000."""
import json
import subprocess
import tempfile
from pathlib import Path

from lib.cases import Case, check_each
from lib.maps import map_of, packed, text_of, tiles
from lib.native import c_program
from lib.places import NATIVE
from module.node import ran

ALONE = True
PACKAGES = ('nodejs',)
# The memory grows by a 32nd at a time.
MOST_RATIO = 1.3
WRAPPED = '-Wl,--wrap=malloc,--wrap=realloc,--wrap=free'
SIDE, LAYERS = 1024, 4
# The lines of a turn that is made again and again, and how many turns.
LINES, TURNS = 100_000, 100


def large_map(is_packed):
    """A map of four layers of 1,048,576 cells."""
    cells = [1 + (at * 2654435761 >> 7) % 900 for at in range(SIDE * SIDE)]
    data = {'data': packed(cells), 'encoding': 'base64'} if is_packed else {'data': cells}
    layers = (tiles(number, SIDE, SIDE, **data) for number in range(1, LAYERS + 1))
    return text_of(map_of(*layers, width=SIDE, height=SIDE))


def stamps():
    yield 'new m 256 256 16 16 t.tsj'
    for at in range(200_000):
        yield f'stamp 1 {at * 7 % 256} {at % 251} 1 {at + 1}'


def fills():
    yield 'new m 1024 1024 16 16 t.tsj'
    for at in range(8):
        yield f'fill 1 {at} {at} {at + 1}'


MAP_LINES = ['open m m.tmj', 'fill 1 0 0 9', 'undo', 'save out.tmj', 'show', 'discard m']
SESSIONS = [
    Case('200,000 stamps', list(stamps()), None),
    Case('8 fills of 1,048,576 cells', list(fills()), None),
    Case('4 layers as numbers', MAP_LINES, False),
    Case('4 layers in base64', MAP_LINES, True),
]


def fault_of(case):
    with tempfile.TemporaryDirectory() as top:
        session, files = Path(top) / 'session.txt', []
        session.write_text(''.join(f'{line}\n' for line in case.given))
        if case.wanted is not None:
            (Path(top) / 'm.tmj').write_bytes(large_map(case.wanted))
            files = ['m.tmj', f'{top}/m.tmj']
        program = c_program(NATIVE / 'library_session.c', '-O2', WRAPPED)
        of_library = int(subprocess.check_output([program, 'peak', session, *files]))
        of_module = int(ran('memory.mjs', 'peak', session, *files))
    ratio = of_module / of_library
    print(f'{case.name}: {of_module / 1e6:.1f} MB, {ratio:.2f} of the library\'s')
    return None if ratio <= MOST_RATIO else f'{of_module} bytes, {ratio:.2f} of the library\'s'


def test_peaks():
    check_each(SESSIONS, fault_of)


def turn():
    """Lines that leave a document at its limit of steps, and files and documents as they were."""
    yield from ['new m 64 64 16 16 t.tsj', 'limit 100', 'layer add object Things']
    yield from ['object add 2 0 0 8 8 thing', 'save m.tmj']
    at = 0
    while at < LINES - 10:
        yield f'stamp 1 {at % 64} {at % 61} 2 {1 + at % 900},{1 + at % 7}'
        yield f'stamp+ 1 {at % 63} {at % 61} 1 {1 + at % 900}'
        yield from [f'erase 1 {at % 60} 3 4 4', f'select replace {at % 9} 1 9 9', 'status', 'undotext']
        yield from [f'object move 1 {at} 5', f'prop set object:1 kind string text {at}']
        yield from ['begin M', f'fill 1 {at % 64} 0 {at % 30}', 'end', 'undo', 'tile 1 0 0', 'redo']
        yield from ['select none', f'layer rename 1 name {at}']
        at += 16
    yield from ['open other m.tmj', 'show', 'discard other', 'discard m']


def test_many_lines():
    with tempfile.TemporaryDirectory() as top:
        session = Path(top) / 'session.txt'
        session.write_text(''.join(f'{line}\n' for line in turn()))
        behind = json.loads(ran('memory.mjs', 'leak', session, str(TURNS)))
    assert len(set(behind[TURNS // 10 :])) == 1, f'bytes of memory behind each turn: {behind}'
