# SPDX-License-Identifier: MIT OR Apache-2.0
"""Maps as trees of JSON: what stands in them, how they are written, and maps that are made here."""
import base64
import json
import struct

MOST_LAYERS, MOST_INSIDE = 256, 16
# The bits of a value that flip or turn its tile, with the letter that `tile` shows for each.
FLAGS = [(0x80000000, 'h'), (0x40000000, 'v'), (0x20000000, 'd'), (0x10000000, 'r')]
FLAGLESS = 0x10000000


def text_of(tree):
    """The text that is written for a tree: compact, with the members of each object in byte order
    of their names."""
    return json.dumps(tree, sort_keys=True, ensure_ascii=False, separators=(',', ':')).encode()


def compact(data):
    """The text that the editor holds of a map, of the bytes of its file: compact, with the version that
    it writes. Nothing of it needs to be set aside."""
    tree = {**json.loads(data), 'version': '1.10'}
    for layer in layers_in(tree['layers']):
        if layer.get('compression') == '':
            del layer['compression']
    return text_of(tree)


def layers_in(layers):
    """The layers of a list and those within its groups, in drawing order."""
    for layer in layers:
        yield layer
        if layer['type'] == 'group':
            yield from layers_in(layer['layers'])


def objects_in(tree):
    """All objects of a map, in drawing order."""
    return [
        item
        for layer in layers_in(tree['layers'])
        if layer['type'] == 'objectgroup'
        for item in layer['objects']
    ]


def written(data):
    """The text of a map that Tiled saved as it is written, from that of its file."""
    tree = json.loads(data)
    tree.update(version='1.10', infinite=False)
    for layer in layers_in(tree['layers']):
        layer.pop('compression', None)
        if layer.get('encoding') == 'base64':
            layer['data'] = ''.join(layer['data'].split())
    return text_of(tree)


# ---- cells


def packed(values):
    """Cells in base64: four bytes each, the lowest first."""
    return base64.b64encode(struct.pack(f'<{len(values)}I', *values)).decode()


def cells_of(layer):
    """The values of a tile layer, row by row."""
    if layer.get('encoding') != 'base64':
        return layer['data']
    data = base64.b64decode(layer['data'])
    return list(struct.unpack(f'<{len(data) // 4}I', data))


def set_cells(layer, cells):
    """Gives a tile layer other values, in the form that it has."""
    layer['data'] = packed(cells) if layer.get('encoding') == 'base64' else cells


def tile_reply(value, first_id=1):
    """What `tile` answers of a value that belongs to the tileset with this first id, or to none."""
    if value == 0:
        return 'tile 0'
    flags = ''.join(letter if value & bit else '-' for bit, letter in FLAGS)
    return f'tile {value} {flags} ' + (
        'none' if first_id is None else f'{first_id} {value % FLAGLESS - first_id}'
    )


# ---- parts of maps, as the editor makes them


def layer_of(number, kind, **members):
    layer = {
        'id': number,
        'name': f'{kind} {number}',
        'opacity': 1,
        'type': kind,
        'visible': True,
        'x': 0,
        'y': 0,
    }
    return {**layer, **members}


def tiles(number, width=2, height=1, **members):
    """A tile layer, empty unless the members have its data."""
    own = {'data': [0] * width * height, 'height': height, 'width': width}
    return layer_of(number, 'tilelayer', **{**own, **members})


def things(number, *objects, **members):
    """An object layer."""
    return layer_of(number, 'objectgroup', draworder='topdown', objects=list(objects), **members)


def thing(number, **members):
    """An object."""
    return {
        'height': 8,
        'id': number,
        'name': f'thing {number}',
        'rotation': 0,
        'type': '',
        'visible': True,
        'width': 8,
        'x': 0,
        'y': 0,
        **members,
    }


def group(number, *layers, **members):
    return layer_of(number, 'group', layers=list(layers), **members)


def many_tiles(count, first):
    """So many tile layers with ids in a row."""
    return [tiles(number) for number in range(first, first + count)]


def property_of(name, kind, value):
    return {'name': name, 'type': kind, 'value': value}


def map_of(*layers, **members):
    """A map of 2 by 1 cells with these layers, ids to come that are above all of theirs, and one
    tileset."""
    return {
        'height': 1,
        'infinite': False,
        'layers': list(layers),
        'nextlayerid': 9001,
        'nextobjectid': 9001,
        'orientation': 'orthogonal',
        'renderorder': 'right-down',
        'tileheight': 16,
        'tilesets': [{'firstgid': 1, 'source': 't.tsj'}],
        'tilewidth': 16,
        'type': 'map',
        'version': '1.10',
        'width': 2,
        **members,
    }


def new_map(width, height, tile_width, tile_height, source):
    """The map that the line `new` opens."""
    return map_of(
        tiles(1, width, height, name='Tile Layer 1'),
        width=width,
        height=height,
        tilewidth=tile_width,
        tileheight=tile_height,
        tilesets=[{'firstgid': 1, 'source': source}],
        nextlayerid=2,
        nextobjectid=1,
    )
