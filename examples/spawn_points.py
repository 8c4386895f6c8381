# SPDX-License-Identifier: MIT OR Apache-2.0
"""Adds a spawn point with properties to every map of a folder. From the top of a clone:

    python3 examples/spawn_points.py FOLDER

All maps are changed before one is saved: where a line is refused for any map, each such map is named on standard error, none is
saved, and the exit status is 1.
"""
import sys
from pathlib import Path

TOP = Path(__file__).resolve().parent.parent
sys.path.insert(0, str(TOP / 'python'))

from roskevad import Document, Editor, Refused  # noqa: E402

LAYER = 'Spawn points'
NAME = 'spawn'


def add_spawn_point(document: Document) -> None:
    """Adds the spawn point, in the middle of a map and in a layer of its own, as one step."""
    # On an isometric map Tiled counts the pixels of objects in tile heights on both axes.
    across = document.tile_height if document.orientation == 'isometric' else document.tile_width
    x, y = document.width * across // 2, document.height * document.tile_height // 2
    with document.macro('Spawn point', action='add a spawn point'):
        layer = document.layers.add('object', LAYER)
        spawn = layer.objects.add(NAME, x, y)
        spawn.properties['facing'] = 'south'
        spawn.properties['team'] = 1


def change(editor: Editor, paths: list[Path]) -> list[str]:
    """Opens and changes each map, as a document with its number for a name; the faults, a line for each."""
    faults = []
    for number, path in enumerate(paths):
        try:
            add_spawn_point(editor.open(path, f'map{number}'))
        except Refused as refusal:
            faults.append(f'{path.name}: {refusal.code} {refusal.words}')
    return faults


def save(editor: Editor, paths: list[Path]) -> None:
    """Saves each document in the place of its file."""
    for document, path in zip(editor.documents.values(), paths):
        document.save()
        print(f'saved {path.name} {path.stat().st_size}')


def main() -> None:
    if len(sys.argv) != 2:
        sys.exit('usage: python3 examples/spawn_points.py FOLDER')
    paths = sorted(Path(sys.argv[1]).resolve().glob('*.tmj'))
    if not paths:
        sys.exit(f'{sys.argv[1]}: no maps')
    with Editor() as editor:
        faults = change(editor, paths)
        if faults:
            sys.exit('\n'.join([*faults, 'no map was saved']))
        try:
            save(editor, paths)
        except Refused as refusal:
            sys.exit(f'{refusal}: the maps named above are saved, and no other')


if __name__ == '__main__':
    main()
