# SPDX-License-Identifier: MIT OR Apache-2.0
"""Any maps that Tiled saves as JSON, made by chance and by Tiled: with fractions, infinite, packed."""
import json

from lib import infinite, tiled_package
from lib.asides import exact
from lib.maps import map_of, thing, things, tiles
from lib.compressions import CSV, COMPRESSIONS, PLAIN, with_cells, with_compression


def saved_as(tree):
    """The tree of a map that was opened and saved, with its cells as lists."""
    return exact({**with_cells(tree), 'version': '1.10'})


def some_map(chosen):
    """A map by chance: infinite or not, with fractions or not, packed in some way."""
    tree = {**infinite.some_map(chosen), 'tilesets': [{'firstgid': 1, 'source': 'a.tsj'}]}
    if chosen.random() < 0.4:
        width, height = chosen.randint(1, 30), chosen.randint(1, 30)
        cells = [chosen.choice((0, chosen.randint(0, 2**32 - 1))) for _ in range(width * height)]
        layer = tiles(1, width, height, data=cells, opacity=chosen.choice((1, 0.1)))
        tree = map_of(layer, things(2, thing(1, x=chosen.choice((3, 413.333)))), width=width, height=height)
    return with_compression(tree, chosen.choice(COMPRESSIONS), chosen.choice((-1, 1, 9)))


def exports(folder):
    """The files that Tiled exports of its examples."""
    for source in tiled_package.unpacked(folder):
        name = f'{source.stem}.tmj'
        if tiled_package.exported(source, source.parent, name) is not None:
            yield source.parent / name


def in_each_format(path):
    """The files of a map as Tiled exports it in each tile layer format, finite and infinite."""
    tree = json.loads(path.read_bytes())
    for compression in COMPRESSIONS:
        for is_infinite in (False, True):
            given = with_compression(tree, compression, 9)
            if is_infinite:
                make_infinite(given)
            (path.parent / 'given.tmj').write_bytes(json.dumps(given).encode())
            name = f'{compression}_{is_infinite}.tmj'
            data = tiled_package.exported(path.parent / 'given.tmj', path.parent, name)
            told = json.loads(data)
            came = told['infinite'], told['layers'][0].get('compression') or CSV
            wanted = is_infinite, CSV if compression == PLAIN else compression
            assert came == wanted, f'Tiled has exported {came}, and not {wanted}'
            yield path.parent / name


def make_infinite(tree):
    for layer in tree['layers']:
        if 'data' in layer:
            sides = {name: layer[name] for name in ('width', 'height')}
            layer.update(chunks=[{'x': -5, 'y': 7, 'data': layer.pop('data'), **sides}], startx=-5, starty=7)
    tree['infinite'] = True
