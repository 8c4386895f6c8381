# SPDX-License-Identifier: MIT OR Apache-2.0
"""Opens, edits, undoes and saves maps with fractions, infinite maps and those packed by zlib and gzip by
the package for JavaScript in Node, and compares what is saved with the source, number by number:
maps by chance, and what Tiled exports of its examples and of one of them in each tile layer format.
Tiled exports what was saved, and that has the same numbers as its export of the source."""
import json
import random
import tempfile
from pathlib import Path

from lib import tiled_package
from lib.any_maps import exports, in_each_format, saved_as, some_map
from lib.cases import Case, check_each, unlike
from lib.json_texts import tree_of
from lib.compressions import ZSTANDARD
from module.node import ran

IS_LONG = True
PACKAGES = ('nodejs', 'tiled', 'python3-zstandard')
SEED, RUNS = 20261129, 100


def saved(path):
    return path.parent / f'saved_{path.name}'


def fault_of_saved(case):
    """What was saved has the numbers of the source."""
    source, came = (tree_of(path.read_bytes())[0] for path in (case.given, saved(case.given)))
    return unlike(saved_as(source), saved_as(came))


def save_in_node(paths):
    """Has Node save the maps of each folder."""
    for folder in {path.parent for path in paths}:
        ran('save_maps.mjs', folder, *(path.name for path in paths if path.parent == folder))


def test_random_maps():
    with tempfile.TemporaryDirectory() as folder:
        paths = []
        for number in range(RUNS):
            text = json.dumps(some_map(random.Random(f'{SEED} {number}')))
            if f'"{ZSTANDARD}"' not in text:
                paths.append(Path(folder) / f'{number}.tmj')
                paths[-1].write_text(text)
        save_in_node(paths)
        check_each([Case(path.name, path, None) for path in paths], fault_of_saved)


def fault_of_export(case):
    """The same, and Tiled exports both the same."""
    return fault_of_saved(case) or tiled_package.unlike_exports(case.given, saved(case.given))


def test_maps_of_tiled():
    with tempfile.TemporaryDirectory() as folder:
        paths = list(exports(folder))
        assert len(paths) >= 12, f'Tiled has exported {len(paths)} maps'
        desert = next(path for path in paths if path.stem == 'desert')
        paths += [path for path in in_each_format(desert) if ZSTANDARD not in path.name]
        save_in_node(paths)
        check_each([Case(path.name, path, None) for path in paths], fault_of_export)
