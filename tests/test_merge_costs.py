# SPDX-License-Identifier: MIT OR Apache-2.0
"""Merges and compares maps of 1,000 by 1,000 cells, of which each side has drawn half anew: the memory that a command takes at most, and its
time of the processor."""
import json
import os
import random
import subprocess
import sys
import tempfile
from pathlib import Path

from lib.cases import Case, check_each
from lib.places import TOP

# It measures time.
ALONE = True
SIDE, MOST_BYTES = 1000, 200_000_000
# It takes some two seconds where nothing else runs.
MOST_SECONDS = 5


def files(folder):
    """The map that both began with; both sides, each with other tiles in one half; and one with a column less, and other first ids."""
    chosen = random.Random(1)
    cells = [chosen.randrange(1, 30) for _ in range(SIDE * SIDE)]
    half = len(cells) // 2
    write(folder, 'base', cells)
    write(folder, 'ours', [chosen.randrange(1, 30) for _ in range(half)] + cells[half:])
    write(folder, 'theirs', cells[:half] + [chosen.randrange(1, 30) for _ in range(half)])
    write(folder, 'cut', [value + 39 for at, value in enumerate(cells, 1) if at % SIDE], SIDE - 1, 40)


def write(folder, name, data, width=SIDE, first=1):
    layer = {'data': data, 'height': SIDE, 'id': 1, 'name': 'Ground', 'opacity': 1, 'type': 'tilelayer', 'visible': True, 'width': width, 'x': 0, 'y': 0}
    tree = {'height': SIDE, 'infinite': False, 'layers': [layer], 'nextlayerid': 2, 'nextobjectid': 1, 'orientation': 'orthogonal',
            'renderorder': 'right-down', 'tileheight': 16, 'tilesets': [{'firstgid': first, 'source': 'a.tsj'}], 'tilewidth': 16, 'type': 'map',
            'version': '1.10', 'width': width}
    Path(folder, name).write_text(json.dumps(tree))


def fault_of_costs(case):
    """How a command takes more than it may, or None."""
    with tempfile.TemporaryDirectory() as folder:
        files(folder)
        words = [sys.executable, '-m', 'roskevad', *(word.format(folder) for word in case.given)]
        process = subprocess.Popen(words, cwd=TOP / 'python', stdout=subprocess.DEVNULL)
        _, status, used = os.wait4(process.pid, 0)
        process.returncode = os.waitstatus_to_exitcode(status)
        seconds, size = used.ru_utime + used.ru_stime, used.ru_maxrss * 1024
        if process.returncode != case.wanted or seconds > MOST_SECONDS or size > MOST_BYTES:
            return f'status {process.returncode}, {seconds:.1f} s, {size:,} bytes'
        return None


def test_costs():
    check_each([Case('a merge', ('merge', '{0}/base', '{0}/ours', '{0}/theirs', '-o', '{0}/out'), 0),
                Case('one with a cut', ('merge', '{0}/base', '{0}/ours', '{0}/cut', '-o', '{0}/out'), 1),
                Case('a difference', ('diff', '{0}/base', '{0}/ours'), 1), Case('its lines', ('diff', '--lines', '{0}/base', '{0}/ours'), 1),
                Case('its picture', ('diff', '--png', '{0}/a.png', '{0}/base', '{0}/ours'), 1)], fault_of_costs)
