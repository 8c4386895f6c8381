# SPDX-License-Identifier: MIT OR Apache-2.0
"""Where things stand in the repository, and which programs are tried."""
import os
import subprocess
from pathlib import Path

TOP = Path(__file__).resolve().parents[2]
TESTS = TOP / 'tests'
NATIVE = TESTS / 'native'
SESSIONS = TOP / 'sessions'
EXAMPLES = TOP / 'examples'
EXAMPLE_MAPS = EXAMPLES / 'maps'
SESSION_MAPS = SESSIONS / 'maps'
# The programs and the library that the repository comes with.
BIN, LIB = TOP / 'bin', TOP / 'lib'

# `tests/run --gate` sets it: the programs are then those that `rt ci` has built, and no test may be
# skipped.
GATE = 'ROSKEVAD_GATE'
IS_GATE = os.environ.get(GATE) == '1'

# A folder in memory, where a save need not wait for a disk. It may be small.
IN_MEMORY = '/dev/shm' if os.access('/dev/shm', os.W_OK) else None


def built(crate):
    """The program of a crate that `rt ci` has proved and built."""
    return TOP / 'crates' / crate / 'out' / crate


TILE_EDITOR = built('tile_editor') if IS_GATE else BIN / 'tile_editor'
MAP_REPORT = built('map_report') if IS_GATE else BIN / 'map_report'


def copy_program(program, to):
    """Copies a program that is to be run from there. Another process writes it: while this one has
    it open for writing, a child that another thread starts has it open too, and no system runs a
    file that is being written."""
    subprocess.run(['cp', program, to], check=True)


def files_in(folder):
    """The files of a folder by their names."""
    return {path.name: path.read_bytes() for path in folder.iterdir()}


def example_maps():
    """The example maps by their names."""
    return {
        name: data for name, data in sorted(files_in(EXAMPLE_MAPS).items()) if name.endswith('.tmj')
    }


def tracked(pattern):
    """The files of that name that git tracks; all that there are where this is no clone."""
    listed = subprocess.run(['git', 'ls-files', pattern], cwd=TOP, capture_output=True, text=True)
    names = listed.stdout.splitlines() or [
        str(path.relative_to(TOP)) for path in TOP.rglob(pattern) if '/out/' not in str(path)
    ]
    return [TOP / name for name in names if (TOP / name).exists()]
