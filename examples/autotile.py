# SPDX-License-Identifier: MIT OR Apache-2.0
"""Gives each wall of a map the tile that goes with its four neighbours. From the top of a clone:

    python3 examples/autotile.py MAP [LAYER]

All tile layers of the name LAYER are done, which is Walls where none is named. A cell is a wall if its tile is one of WALLS or KEPT, and
beyond the map's edge there is none. What becomes of a wall depends on its neighbours alone, so a second run changes nothing, and then the
file is not written. All is one step.
"""
import sys
from pathlib import Path

TOP = Path(__file__).resolve().parent.parent
sys.path.insert(0, str(TOP / 'python'))

from roskevad import Document, Editor, Error, Layer  # noqa: E402

NORTH, EAST, SOUTH, WEST = 1, 2, 4, 8
BESIDE = ((NORTH, 0, -1), (EAST, 1, 0), (SOUTH, 0, 1), (WEST, -1, 0))
POST, WALL, WINDOW, DOOR, SIDE = 8, 9, 10, 11, 16  # their IDs in Tiled
# The tile for each sum of neighbours, from 0 to 15: with 16 tiles of your own no two need be the same.
TILES = [POST] * 16
TILES[NORTH] = TILES[SOUTH] = TILES[NORTH | SOUTH] = SIDE
TILES[EAST] = TILES[WEST] = TILES[EAST | WEST] = WALL
WALLS = {*TILES}
# They count as walls, and stay what they are.
KEPT = {WINDOW, DOOR}


def autotile(layer: Layer, first_id: int) -> None:
    """Sets the walls of a layer, by the tiles of the tileset with this first id; cells with other tiles stay."""
    rows = layer.rows()
    ids = {(x, y): value - first_id for y, row in enumerate(rows) for x, value in enumerate(row)}
    walls = {place for place, id in ids.items() if id in WALLS | KEPT}
    for x, y in walls:
        if ids[x, y] in WALLS:
            near = sum(side for side, right, down in BESIDE if (x + right, y + down) in walls)
            rows[y][x] = first_id + TILES[near]
    layer.write(0, 0, rows)


def autotile_all(document: Document, name: str) -> int:
    """Sets the walls of all tile layers of a name, as one step; how many layers there are."""
    layers = [layer for layer in document.layers.walk() if (layer.kind, layer.name) == ('tile', name)]
    tileset = document.tilesets.first
    if tileset is not None:
        with document.macro('Autotile', action='set walls by their neighbours'):
            for layer in layers:
                autotile(layer, tileset.first_id)
    return len(layers)


def main() -> None:
    if len(sys.argv) not in (2, 3):
        sys.exit('usage: python3 examples/autotile.py MAP [LAYER]')
    name = sys.argv[2] if sys.argv[2:] else 'Walls'
    try:
        with Editor() as editor, editor.open(sys.argv[1]) as document:
            if not autotile_all(document, name):
                sys.exit(f'{sys.argv[1]}: no tile layer {name}')
            if document.status.clean:
                print('nothing to change')
            else:
                document.save()
                print('saved')
    except Error as fault:
        sys.exit(f'{sys.argv[1]} stays as it is: {fault}')


if __name__ == '__main__':
    main()
