# SPDX-License-Identifier: MIT OR Apache-2.0
"""Replaces a tile by another one of the same tileset in all maps of a folder, in cells and in objects. From the top of a clone:

    python3 examples/replace_tiles.py FOLDER TILESET OLD NEW

TILESET is the name of the tileset's file, as tiles.tsx, or the name of a tileset that stands in the map. OLD and NEW are the IDs of the
tiles in Tiled. Flips stay. A map without the tile is not written, so its bytes and its time stay. A map that is refused is named on
standard error with the place of its fault; the others are changed all the same, and the exit status is 1.
"""
import sys
from pathlib import Path

from edit_maps import edit_maps, maps_in
from roskevad import Document, Tileset


def is_named(tileset: Tileset, name: str) -> bool:
    """Whether a tileset has this name, or its file does, in whatever folder that is."""
    return tileset.name == name if tileset.source is None else Path(tileset.source).name == name


def may_have(tileset: Tileset, id: int, document: Document) -> bool:
    """Whether a tile's value is of this tileset, and not of one behind it."""
    value = tileset.value(id)
    return max(each.first_id for each in document.tilesets if each.first_id <= value) == tileset.first_id


def replace(document: Document, name: str, old: int, new: int) -> int:
    """Replaces a tile by another one of the tileset of a name, as one step; how many cells and objects had it."""
    count = 0
    named = [each for each in document.tilesets if is_named(each, name)]
    with document.macro('Replace tiles', action=f'replace tile {old} by {new}'):
        for tileset in [each for each in named if may_have(each, old, document) and may_have(each, new, document)]:
            for layer in document.layers.walk():
                if layer.kind == 'tile':
                    count += layer.replace(tileset.value(old), tileset.value(new))
            for each in document.objects:
                if each.tile and (each.tile.tileset, each.tile.local_id) == (tileset, old):
                    # The value has the tile's flips, too: they stay.
                    each.tile = each.tile.value + new - old
                    count += 1
    return count


def main() -> int:
    if len(sys.argv) != 5 or not all(word.isdigit() for word in sys.argv[3:]):
        sys.exit('usage: python3 examples/replace_tiles.py FOLDER TILESET OLD NEW')
    name, old, new = sys.argv[2], *map(int, sys.argv[3:])
    return edit_maps(maps_in(sys.argv[1]), lambda document: f'{replace(document, name, old, new)} replaced')


if __name__ == '__main__':
    sys.exit(main())
