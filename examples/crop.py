# SPDX-License-Identifier: MIT OR Apache-2.0
"""Crops maps to what is in them. From the top of a clone:

    python3 examples/crop.py MAP ..

What is in a map are its cells with a tile, in all layers, and the rectangles of its objects as far as they are on the map, unturned; on a
staggered or hexagonal map, whose rows overlap, its cells alone, from an even row and column on. A map that is full or empty is not written.
A map that is refused is named on standard error, and the exit status is 1.
"""
import sys
from typing import Iterator

from edit_maps import edit_maps
from roskevad import Document

Cell = tuple[int, int]


def is_staggered(document: Document) -> bool:
    """Whether rows, or columns, overlap: each second one lies aside."""
    return document.orientation in ('staggered', 'hexagonal')


def filled_cells(document: Document) -> Iterator[Cell]:
    """The cells that have a tile."""
    for layer in document.layers.walk():
        if layer.kind == 'tile':
            for y, row in enumerate(layer.rows()):
                yield from ((x, y) for x, value in enumerate(row) if value)


def cells_of_objects(document: Document) -> Iterator[Cell]:
    """The first and the last cell of the rectangle of each object, as far as it is on the map; a tile stands on its place."""
    # On an isometric map the pixels of objects are counted in tile heights on both axes.
    across, down = document.tile_height if document.orientation == 'isometric' else document.tile_width, document.tile_height
    width, height = document.width, document.height
    if is_staggered(document):
        return
    for each in document.objects:
        top = each.y - each.height if each.tile else each.y
        left, right = int(each.x // across), int((each.x + max(each.width - 1, 0)) // across)
        first, last = int(top // down), int((top + max(each.height - 1, 0)) // down)
        if left < width and right >= 0 and first < height and last >= 0:
            yield max(left, 0), max(first, 0)
            yield min(right, width - 1), min(last, height - 1)


def crop(document: Document) -> None:
    """Crops a map, as one step. One that is full or empty stays as it is."""
    width, height = document.width, document.height
    places = [*filled_cells(document), *cells_of_objects(document)]
    if places:
        (left, right), (top, bottom) = ((min(each), max(each) + 1) for each in zip(*places))
        if is_staggered(document):
            # An odd number of rows would put the others aside.
            left, top = left - left % 2, top - top % 2
        if (left, top, right, bottom) != (0, 0, width, height):
            document.resize(right - left, bottom - top, -left, -top)


def cropped(document: Document) -> str:
    """Crops a map, and tells how large it is then."""
    crop(document)
    return f'{document.width} by {document.height}'


def main() -> int:
    if not sys.argv[1:]:
        sys.exit('usage: python3 examples/crop.py MAP ..')
    return edit_maps(sys.argv[1:], cropped)


if __name__ == '__main__':
    sys.exit(main())
