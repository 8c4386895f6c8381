# SPDX-License-Identifier: MIT OR Apache-2.0
"""Infinite maps on the page."""
import json

from page.bench import Bench, take_tile


def chunk(x, y, width=16, height=16, value=3):
    return {'x': x, 'y': y, 'width': width, 'height': height, 'data': [value] * (width * height)}


def infinite(*chunks, layers=1, size=None, **members):
    """An infinite map with these chunks in each layer, and an object."""
    tiles = [{'chunks': list(chunks), 'width': 16, 'height': 16, 'startx': 0, 'starty': 0, 'id': at + 1, 'name': f'Tiles {at + 1}',
              'opacity': 1, 'type': 'tilelayer', 'visible': True, 'x': 0, 'y': 0} for at in range(layers)]
    things = {'id': layers + 1, 'name': 'Things', 'type': 'objectgroup', 'draworder': 'topdown', 'opacity': 1, 'visible': True, 'x': 0, 'y': 0,
              'objects': [{'id': 1, 'name': 'well', 'type': '', 'x': 40, 'y': 24, 'width': 16, 'height': 16, 'rotation': 0, 'visible': True}]}
    settings = {'editorsettings': {'chunksize': {'width': size[0], 'height': size[1]}}} if size else {}
    return {'type': 'map', 'version': '1.10', 'infinite': True, 'orientation': 'orthogonal', 'renderorder': 'right-down', 'width': 16, 'height': 16,
            'tilewidth': 16, 'tileheight': 16, 'nextlayerid': layers + 2, 'nextobjectid': 2, 'tilesets': [{'firstgid': 1, 'source': 'tiles.tsx'}],
            'layers': [*tiles, things], **settings, **members}


def to_middle(page):
    """Shows the first chunk in the middle of the window, at its size."""
    page.js('const {view} = roskevad, by = (length, origin) => Math.round(length / 2 - origin - 128);'
            'view.zoomTo(1); view.panBy(by(view.canvas.width, view.originX), by(view.canvas.height, view.originY))')
    page.settle()


class Plane:
    """The page over a map that is infinite, of which less than all of the window is taken."""

    def __init__(self, told):
        self.bench, self.told = Bench(empty=True), told

    def __enter__(self):
        page = self.bench.__enter__()
        (self.bench.folder / 'plane.tmj').write_text(json.dumps(self.told))
        page.choose_files(*self.bench.folder.glob('tiles.ts?'), *self.bench.folder.glob('*.png'), self.bench.folder / 'plane.tmj')
        to_middle(page)
        take_tile(page, (3, 1))
        page.keys('b')
        return page

    def __exit__(self, *words):
        self.bench.__exit__(*words)

    def saved(self, page):
        page.ctrl('s')
        return json.loads(self.bench.saved('plane.tmj'))
