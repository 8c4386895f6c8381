# SPDX-License-Identifier: MIT OR Apache-2.0
"""Has two, four and eight runs save one name at once, also with each call delayed and with some of
them killed. No save is refused, whoever is answered `saved` had its map whole under the name, and
whoever reads the file finds a whole map. A killed run leaves at most one file beside it, which the
next save takes away. native/interpose_saves.c delays, kills, and tells what is renamed."""
import os
import signal
import subprocess
import tempfile
from dataclasses import dataclass
from pathlib import Path

from lib.cases import check_each
from lib.native import interposed
from lib.places import IN_MEMORY, SESSION_MAPS, TILE_EDITOR
from lib.readers import Reader
from lib.sessions import joined

EMPTY = (SESSION_MAPS / 'town.tmj').read_bytes()
CELLS = 12
NAME = 'm.tmj'
# The tiles that each run stamps in turn, each in a cell of its own.
TILES = [1, 2, 3, 4, 5]


@dataclass(frozen=True)
class Writers:
    """So many runs, the saves of each, the longest delay of a call, and how many are killed."""

    name: str
    count: int
    saves: int
    delay: int = 0
    killed: int = 0


CASES = [
    Writers('two runs', 2, 60),
    Writers('four runs', 4, 40),
    Writers('eight runs', 8, 30),
    Writers('two runs with delays', 2, 40, delay=3000),
    Writers('four runs with delays', 4, 30, delay=3000),
    Writers('eight runs with delays', 8, 20, delay=3000),
    Writers('eight runs of which four are killed', 8, 20, delay=3000, killed=4),
]


def stamped(cell, tile):
    """The map with one cell stamped."""
    cells = ['0'] * CELLS
    cells[cell] = str(tile)
    return EMPTY.replace(b'"data":[' + b','.join([b'0'] * CELLS), b'"data":[' + ','.join(cells).encode())


def hashed(data):
    """The FNV-1a hash of bytes."""
    value = 14695981039346656037
    for byte in data:
        value = (value ^ byte) * 1099511628211 % 2**64
    return value


def session_of(number, saves):
    """The lines of a run, and what it must save, in turn."""
    x, y = number % 4, number // 4
    tiles = [TILES[at % len(TILES)] for at in range(saves)]
    lines = [b'new town 4 3 16 16 town.tsj']
    for tile in tiles:
        lines += [f'stamp 1 {x} {y} 1 {tile}'.encode(), f'save {NAME}'.encode()]
    return lines, [stamped(number, tile) for tile in tiles]


def started(writers, number, folder):
    """A run that saves, and what it must save."""
    lines, wanted = session_of(number, writers.saves)
    env = {'LD_PRELOAD': interposed('interpose_saves.c'), 'DELAY': str(writers.delay), 'TELL': '1'}
    if number < writers.killed:
        # It is killed at some call of a save in the middle.
        env.update(STOP_BY='kill', STOP_AT=str(14 * (writers.saves // 2) + 3 * number))
    run = subprocess.Popen(
        [TILE_EDITOR, '--folder', 'maps'],
        stdin=subprocess.PIPE,
        stdout=subprocess.PIPE,
        stderr=subprocess.PIPE,
        cwd=folder,
        env=env,
    )
    # The lines are few enough for the pipe, so all runs hear theirs at once.
    run.stdin.write(joined(lines))
    run.stdin.close()
    run.stdin = None
    return run, wanted


def fault_of_run(run, wanted, is_killed):
    """What is wrong with what a run answered and renamed, or None."""
    output, errors = run.communicate(timeout=300)
    saves = [line for line in output.split(b'\n') if line.startswith((b'saved', b'no'))]
    refused = [line for line in saves if line != f'saved {NAME} {len(EMPTY)}'.encode()]
    if refused:
        return f'{len(refused)} saves are refused: {refused[0]}, {errors[-400:]}'
    if run.returncode != (-signal.SIGKILL if is_killed else 0):
        return f'exit status {run.returncode}'
    if not is_killed and len(saves) != len(wanted):
        return f'{len(saves)} saves are answered, of {len(wanted)}'
    renamed = [line.split()[1:] for line in errors.decode().splitlines() if line.startswith('renamed ')]
    whole = [[str(len(data)), str(hashed(data))] for data in wanted]
    # A killed run has made saves that it could not answer any more.
    is_too_many = len(renamed) > len(saves) and not is_killed
    if len(renamed) < len(saves) or is_too_many or renamed != whole[: len(renamed)]:
        return f'what was put under the name is not what was saved: {renamed}'
    return None


def left_over(maps):
    return sorted(name for name in os.listdir(maps) if name != NAME)


def fault_in(writers, folder):
    """What is wrong where runs save one name in a folder, or None."""
    maps = folder / 'maps'
    maps.mkdir()
    (maps / NAME).write_bytes(EMPTY)
    whole = {EMPTY, *(stamped(number, tile) for number in range(writers.count) for tile in TILES)}
    with Reader(maps / NAME, whole.__contains__) as reader:
        runs = [started(writers, number, folder) for number in range(writers.count)]
        faults = [fault_of_run(*run, number < writers.killed) for number, run in enumerate(runs)]
    if any(faults):
        return '\n    '.join(filter(None, faults))
    if reader.faults:
        return f'{len(reader.faults)} of {reader.count} reads find no whole map: {reader.faults[0]}'
    if (rest := left_over(maps)) and len(rest) > writers.killed:
        return f'{rest} are left'
    lines, (wanted, *_) = session_of(0, 1)
    subprocess.run([TILE_EDITOR, '--folder', maps], input=joined(lines), capture_output=True, check=True)
    if rest := left_over(maps):
        return f'the next save leaves {rest}'
    return None if (maps / NAME).read_bytes() == wanted else 'the next save is not there'


def fault_of(writers):
    with tempfile.TemporaryDirectory(dir=IN_MEMORY) as folder:
        return fault_in(writers, Path(folder))


def test_two_writers():
    check_each(CASES, fault_of, 1)
