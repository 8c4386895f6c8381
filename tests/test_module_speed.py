# SPDX-License-Identifier: MIT OR Apache-2.0
"""Measures what lines take on the module in Node and in Chromium, and on the library beside it, and
tells the ratios. Times depend on the machine and on what else it does, so none fails here:
docs/speed.md has those of a machine that does nothing else."""
import json
import random
import subprocess
import tempfile
from pathlib import Path

from lib.native import c_program
from lib.places import NATIVE
from module.browsers import chromium, told
from module.node import ran
from module.server import Server

ALONE = True
PACKAGES = ('chromium', 'nodejs')
TURNS, SEED = 7, 20261126
WRAPPED = '-Wl,--wrap=malloc,--wrap=realloc,--wrap=free'


def stamps():
    """200,000 stamps of one cell, and as many undos and redos."""
    chosen = random.Random(SEED)
    yield 'new m 256 256 16 16 t.tsj'
    for at in range(200_000):
        # No other stamp has this value, so each changes its cell.
        yield f'stamp 1 {chosen.randrange(256)} {chosen.randrange(256)} 1 {at + 1}'
    yield from ['undo'] * 200_000
    yield from ['redo'] * 200_000


def questions():
    """300,000 lines that change nothing."""
    chosen = random.Random(SEED)
    yield from ['new m 256 256 16 16 t.tsj', 'fill 1 0 0 7']
    for _ in range(100_000):
        yield from [f'tile 1 {chosen.randrange(256)} {chosen.randrange(256)}', 'status', 'undotext']


def of_library(file):
    """The milliseconds of the quickest turn on the library."""
    program = c_program(NATIVE / 'library_session.c', '-O2', WRAPPED)
    printed = subprocess.check_output([program, 'time', str(TURNS), file], text=True)
    return min(float(line) for line in printed.split()) / 1e6


def tell(name, count, base, times):
    """Tells the quickest turns by each call, and how many of the library's time they take."""
    rows = ', '.join(
        f'{way} {1e6 * min(turns) / count:.0f} ns ({min(turns) / base:.2f})'
        for way, turns in times.items()
    )
    print(f'{name}, a line: library {1e6 * base / count:.0f} ns, {rows}')


def measure(lines):
    session = ''.join(f'{line}\n' for line in lines())
    with tempfile.TemporaryDirectory() as folder, Server() as server:
        file = Path(folder) / 'session.txt'
        file.write_text(session)
        server.texts['/session'] = session.encode()
        base, count = of_library(file), session.count('\n')
        in_node = json.loads(ran('speed.mjs', file, str(TURNS)))
        tell(f'{lines.__name__} in Node', count, base, in_node)
        in_page = told(
            chromium, server, '/tests/module/speed.mjs', 'timesOf', '/session', TURNS
        )
        tell(f'{lines.__name__} in Chromium', count, base, in_page)


def test_stamps():
    measure(stamps)


def test_questions():
    measure(questions)
