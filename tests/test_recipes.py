# SPDX-License-Identifier: MIT OR Apache-2.0
"""Runs some of the programs of docs/recipes.md on maps that are made here, and compares what they do with what their text says. That
all programs of the pages end with status 0, test_docs.py sees."""
import json
import subprocess

from lib import maps
from lib.cases import see
from lib.pages import Clone, Page
from lib.places import EXAMPLE_MAPS, TOP

PACKAGES = ('nodejs',)
# As in examples/autotile.py: posts at corners, walls from side to side, their sides up and down; a window, a door and a tree stay.
RING = [[9, 9, 9, 11, 9], [9, 0, 14, 0, 9], [9, 9, 12, 9, 9], [0, 0, 9, 0, 0]]
RING_DONE = [[9, 10, 10, 11, 9], [17, 0, 14, 0, 17], [9, 10, 12, 10, 9], [0, 0, 17, 0, 0]]
FLOOR, WALL = 2, 7


def recipe(words):
    """The one program of the page that has these words, and the words that run it."""
    (found,) = [program for program in Page(TOP / 'docs' / 'recipes.md').programs() if words in program[1]]
    return found


def run(clone, words):
    """What a program of the page prints, over the maps of a copy of the repository."""
    command, program = recipe(words)
    program = program.replace('/tmp/maps', str(clone.maps))
    done = subprocess.run([*command, program], cwd=clone.folder, capture_output=True, text=True, timeout=120)
    see((0, ''), (done.returncode, done.stderr))
    return done.stdout


def test_autotile():
    """A second run does not write the file."""
    ring = maps.map_of(maps.tiles(1, 5, 4, name='Walls', data=sum(RING, [])), width=5, height=4)
    with Clone() as clone:
        clone.maps.mkdir(exist_ok=True)
        path = clone.maps / 'town.tmj'
        path.write_bytes(maps.text_of(ring))
        run(clone, 'autotile')
        tree = json.loads(path.read_bytes())
        see({**ring, 'layers': [{**ring['layers'][0], 'data': sum(RING_DONE, [])}]}, tree)
        inode = path.stat().st_ino
        run(clone, 'autotile')
        see((inode, tree), (path.stat().st_ino, json.loads(path.read_bytes())))


def test_dungeon():
    """Each spawn point stands on the floor, and the floors are joined."""
    with Clone() as clone:
        clone.maps.mkdir(exist_ok=True)
        run(clone, '"Dungeon"')
        tree = json.loads((clone.maps / 'dungeon.tmj').read_bytes())
        floor, points = tree['layers']
        width, cells = tree['width'], floor['data']
        see(({FLOOR, WALL}, 8), ({*cells}, len(points['objects'])))
        places = {(each['x'] - 8) // 16 + (each['y'] - 8) // 16 * width for each in points['objects']}
        found, new = set(), [min(places)]
        while new:
            at = new.pop()
            if at not in found and cells[at] == FLOOR:
                found.add(at)
                new += [at - 1, at + 1, at - width, at + width]
        see((cells.count(FLOOR), True), (len(found), places <= found))
        for each in points['objects']:
            see(('Spawn', True, [maps.property_of('team', 'int', 2)]), (each['type'], each['point'], each['properties']))


def test_code_of_others():
    """What it changes is told; what throws leaves no step, none to be redone either."""
    with Clone() as clone:
        clone.maps.mkdir(exist_ok=True)
        (clone.maps / 'town.tmj').write_bytes((EXAMPLE_MAPS / 'town.tmj').read_bytes())
        told = ' '.join(run(clone, 'Cellar').split())
        pond, _, cellar = told.partition(' ] [ ')
        see(True, "'layer 1: 2 by 2 cells at 2, 2', 'object 2'" in pond)
        assert 'NotFound' in cellar and 'the map is as it was' in cellar and 'index: 0, count: 0, clean: true' in cellar, told
