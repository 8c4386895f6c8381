# SPDX-License-Identifier: MIT OR Apache-2.0
"""Makes room for more tiles in the tilesets of maps. From the top of a clone:

    python3 examples/make_room.py TILES MAP ..

Behind each tileset but the last one there is then room for so many tiles: the first ids of those behind it rise where they have to, and all tiles
on the map go along. So a picture can grow without a tile of another tileset taking its place. A new tileset is added behind the others all the
same: the order of the tilesets is that of their first ids. A map that has the room is not written. A map that is refused is named on standard
error, and the exit status is 1.
"""
import sys
from itertools import accumulate

from edit_maps import edit_maps
from roskevad import Document


def make_room(document: Document, tiles: int) -> str:
    """Gives tilesets first ids that leave room for so many tiles, as one step; and tells them."""
    tilesets = sorted(document.tilesets, key=int)
    firsts = accumulate(map(int, tilesets), lambda before, first: max(first, before + tiles))
    changes = [(tileset, first) for tileset, first in zip(tilesets, firsts) if tileset.first_id != first]
    with document.macro('Make Room'):
        for tileset, first in reversed(changes):
            document.tilesets.renumber(tileset, first)
    return ' '.join(['first ids', *(str(int(each)) for each in document.tilesets)])


def main() -> int:
    if len(sys.argv) < 3 or not sys.argv[1].isdecimal():
        sys.exit('usage: python3 examples/make_room.py TILES MAP ..')
    return edit_maps(sys.argv[2:], lambda document: make_room(document, int(sys.argv[1])))


if __name__ == '__main__':
    sys.exit(main())
