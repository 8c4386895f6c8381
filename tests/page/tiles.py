# SPDX-License-Identifier: MIT OR Apache-2.0
"""A map with tiles of other sizes than a cell, each in its eight flips and turns, and `tiles.png`,
which is what Tiled 1.8.2 draws of it. To make the picture anew, where `tmxrasterizer` is installed:

  PYTHONPATH=tests python3 -c "from page import tiles; tiles.make()"
"""
import json
import os
import shutil
import subprocess
import tempfile
from pathlib import Path

from lib.maps import map_of, tiles
from lib.places import EXAMPLE_MAPS

PICTURE = Path(__file__).with_name('tiles.png')
WIDTH, HEIGHT, SIDE = 10, 8, 16
TILESETS = {
    'tall': 'tilewidth="16" tileheight="32" tilecount="16" columns="8"',
    'wide': 'tilewidth="32" tileheight="16" tilecount="16" columns="4"',
    'spaced': 'tilewidth="14" tileheight="14" spacing="2" margin="1" tilecount="32" columns="8"',
}


def put_map(folder):
    """Writes the map and its tilesets: tall tiles in row 2, wide ones in row 5, and some with space
    between them in row 7."""
    cells = [0] * (WIDTH * HEIGHT)
    for flips in range(8):
        for row, value in ((2, 3), (5, 35), (7, 69 + flips % 2)):
            cells[row * WIDTH + flips] = flips << 29 | value
    layer = tiles(1, WIDTH, HEIGHT, name='Flips', data=cells)
    for name, numbers in TILESETS.items():
        image = '<image source="tiles.png" width="128" height="64"/>'
        tileset = f'<tileset version="1.8" name="{name}" {numbers}>{image}</tileset>'
        (folder / f'{name}.tsx').write_text(f'<?xml version="1.0"?>{tileset}')
    tilesets = [
        {'firstgid': 1 + 32 * at, 'source': f'{name}.tsx'} for at, name in enumerate(TILESETS)
    ]
    sizes = map_of(
        layer,
        version='1.8',
        width=WIDTH,
        height=HEIGHT,
        tilewidth=SIDE,
        tileheight=SIDE,
        nextlayerid=2,
        nextobjectid=1,
        tilesets=tilesets,
    )
    (folder / 'sizes.tmj').write_text(json.dumps(sizes))


def make():
    """Has Tiled draw the map."""
    with tempfile.TemporaryDirectory() as top:
        shutil.copy(EXAMPLE_MAPS / 'tiles.png', top)
        put_map(Path(top))
        subprocess.run(
            ['tmxrasterizer', f'{top}/sizes.tmj', PICTURE],
            check=True,
            env={**os.environ, 'QT_QPA_PLATFORM': 'offscreen'},
        )
