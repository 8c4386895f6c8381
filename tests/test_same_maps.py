# SPDX-License-Identifier: MIT OR Apache-2.0
"""Compares the maps that `rt ci` reads with those of the examples: a program that it runs is given
the files of its own crate alone. Besides, the pictures of the tiles must be those that their script
draws."""
import subprocess
import sys

from lib.cases import Case, check_each, unlike
from lib.places import EXAMPLES, EXAMPLE_MAPS, TOP, files_in

OWN = TOP / 'crates' / 'map_report' / 'data' / 'maps'
# What stands beside the example maps alone.
OF_EXAMPLES = ('.png', '.tsx', '.tsj', 'README.md')


def test_maps_of_the_gate():
    maps = {
        name: data
        for name, data in files_in(EXAMPLE_MAPS).items()
        if not name.endswith(OF_EXAMPLES)
    }
    own = {name: data for name, data in files_in(OWN).items() if not name.endswith(OF_EXAMPLES)}
    check_each(
        [Case(name, name, maps.get(name)) for name in sorted({*maps, *own})],
        lambda case: unlike(case.wanted, own.get(case.given)),
    )


def test_pictures_of_the_tiles():
    words = [sys.executable, EXAMPLES / 'tiles' / 'draw_tiles.py', '--check']
    done = subprocess.run(words, stdout=subprocess.PIPE, stderr=subprocess.STDOUT, text=True)
    assert done.returncode == 0, f'{words[1]} --check: status {done.returncode}: {done.stdout}'
