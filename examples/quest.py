# SPDX-License-Identifier: MIT OR Apache-2.0
"""Adds a layer with a quest to a map: a point, a polygon, and a turned tile, with their classes. From the top of a clone:

    python3 examples/quest.py MAP [OTHER_MAP]

Besides, all layers of the name Roof become clear, so that what is under them is seen. The quest is one step: one undo takes all of it
back. Without OTHER_MAP the map is saved in its place.
"""
import sys
from pathlib import Path

TOP = Path(__file__).resolve().parent.parent
sys.path.insert(0, str(TOP / 'python'))

from roskevad import Document, Editor, Error, Layer  # noqa: E402

SIGN = 30  # its ID in Tiled, in the first tileset
# The corners of the area, from its first one on, in pixels.
CORNERS = [(0, 0), (48, 16), (32, 64), (-16, 48)]


def add_things(document: Document, layer: Layer) -> None:
    """Adds the objects, around the middle of the map."""
    x, y = document.width * document.tile_width // 2, document.height * document.tile_height // 2
    layer.objects.add('giver', x, y, point=True, class_name='Person', properties={'wants': 'a key'})
    layer.objects.add('search here', x, y, polygon=CORNERS, class_name='Area', visible=False)
    if document.tilesets.first is not None:
        tile = document.tilesets.first.value(SIGN)
        layer.objects.add('sign', x + 16, y, document.tile_width, document.tile_height, tile=tile, rotation=45)


def add_quest(document: Document) -> None:
    """Adds the quest, as one step."""
    with document.macro('Quest', action='add a quest'):
        layer = document.layers.add('object', 'Quest')
        layer.class_name = 'Quest'
        layer.members.update(color='#ffaa00', draworder='index')
        add_things(document, layer)
        for each in document.layers.walk():
            if each.name == 'Roof':
                each.visible = True
                each.opacity = 0


def main() -> None:
    if len(sys.argv) not in (2, 3):
        sys.exit('usage: python3 examples/quest.py MAP [OTHER_MAP]')
    try:
        with Editor() as editor, editor.open(sys.argv[1]) as document:
            add_quest(document)
            document.save(sys.argv[-1])
            print(document)
    except Error as fault:
        sys.exit(f'{sys.argv[1]} stays as it is: {fault}')


if __name__ == '__main__':
    main()
