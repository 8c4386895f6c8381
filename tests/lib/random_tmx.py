# SPDX-License-Identifier: MIT OR Apache-2.0
"""Maps in XML by chance, with all that Tiled 1.8 knows: layers in each format, infinite maps, groups, shapes, texts, properties of each type, wang
sets, and odd numbers. Tiled itself writes them anew before they are tried."""
import base64
import gzip
import struct
import zlib
from xml.sax.saxutils import escape, quoteattr

WORDS = ('a', 'Ü "q"', 'x/y\\z', '<&>', '', '日本 𝄞', 'name', 'UPPER', 'z z')
TEXTS = ('one\ntwo', ' \n x', 'a\n', '<b>\n&"\'\n\n\tz')
FORMATS = ('csv', 'csv', 'xml', 'base64', 'base64-zlib', 'base64-gzip')
ORIENTATIONS = ('orthogonal', 'isometric', 'staggered', 'hexagonal')
PACKERS = {'': bytes, 'zlib': zlib.compress, 'gzip': gzip.compress}
CELLS_OF_CHUNK = 256


def element(name, attributes, *children):
    """An element with those attributes that are not None."""
    told = ''.join(f' {key}={quoteattr(str(value))}' for key, value in attributes.items() if value is not None)
    inner = ''.join(children)
    return f'<{name}{told}>{inner}</{name}>' if inner else f'<{name}{told}/>'


class RandomMap:
    """One map, by a random.Random."""

    def __init__(self, chosen):
        self.chosen = chosen
        self.layer_id = self.object_id = 0
        self.is_infinite = chosen.random() < 0.3
        self.width, self.height = chosen.randrange(1, 24), chosen.randrange(1, 20)
        self.orientation = chosen.choice(ORIENTATIONS)
        self.format = chosen.choice(FORMATS)

    # ---- values
    def maybe(self, chance, make):
        return make() if self.chosen.random() < chance else None

    def one_of(self, chance, *values):
        return self.maybe(chance, lambda: self.chosen.choice(values))

    def number(self):
        chosen = self.chosen
        odd = chosen.choice((1e-7, 1e7, 123456.5, 1234567.25, 0.1, 1 / 3, 5e8))
        some = (chosen.randrange(-50, 500), round(chosen.uniform(-50, 500), chosen.randrange(1, 5)), chosen.uniform(-1e3, 1e3), odd)
        return repr(chosen.choice(some))

    def size(self):
        return repr(abs(float(self.number())) or 1)

    def color(self):
        return f'#{self.chosen.choice(("", "80", "00"))}{self.chosen.randrange(1 << 24):06x}'

    # ---- properties
    def value(self, kind):
        chosen = self.chosen
        return {
            'string': lambda: chosen.choice(WORDS), 'int': lambda: chosen.choice((0, -5, 2**31 - 1, -(2**31), 7)),
            'float': lambda: repr(chosen.choice((chosen.uniform(0, 1), chosen.random() * 10 ** chosen.randrange(-12, 20), 0.5))),
            'bool': lambda: chosen.choice(('true', 'false')), 'color': lambda: f'#{chosen.randrange(1 << 32):08x}',
            'file': lambda: chosen.choice(('tiles.png', '../a b/é.png', '')), 'object': lambda: chosen.randrange(9),
        }[kind]()

    def property(self, number):
        kind = self.chosen.choice(('string', 'int', 'float', 'bool', 'color', 'file', 'object', 'lines'))
        name = f'{kind}_{number}{self.chosen.choice(("", " é", "A", "<"))}'
        if kind == 'lines':
            return element('property', {'name': name}, escape(self.chosen.choice(TEXTS)))
        return element('property', {'name': name, 'type': None if kind == 'string' else kind, 'value': self.value(kind)})

    def properties(self, chance=0.35):
        if self.chosen.random() > chance:
            return ''
        numbers = self.chosen.sample(range(20), self.chosen.randrange(1, 5))
        return element('properties', {}, *map(self.property, numbers))

    # ---- layers
    def common(self):
        self.layer_id += self.chosen.randrange(1, 3)
        return {
            'id': self.layer_id, 'name': self.one_of(0.8, *WORDS), 'visible': self.one_of(0.2, 0, 1), 'locked': self.one_of(0.2, 1),
            'opacity': self.one_of(0.3, 0.5, 0.123456789, 0.25, 0, 1), 'tintcolor': self.maybe(0.2, self.color),
            **{name: self.maybe(0.2, self.number) for name in ('offsetx', 'offsety', 'parallaxx', 'parallaxy')},
        }

    def cell(self):
        if self.chosen.random() < 0.3:
            return 0
        flags = (16, 28) if self.orientation == 'hexagonal' else (8, 29)
        turned = self.chosen.randrange(flags[0]) << flags[1] if self.chosen.random() < 0.3 else 0
        return self.chosen.randrange(1, 65) | turned

    def cells_told(self, cells):
        encoding, _, compression = self.format.partition('-')
        if encoding == 'csv':
            return ','.join(map(str, cells))
        if encoding == 'xml':
            return ''.join(f'<tile gid="{cell}"/>' for cell in cells)
        return base64.b64encode(PACKERS[compression](struct.pack(f'<{len(cells)}I', *cells))).decode()

    def chunk(self, column):
        cells = [self.cell() if self.chosen.random() < 0.3 else 0 for _ in range(CELLS_OF_CHUNK)]
        place = {'x': column * 16, 'y': self.chosen.randrange(-1, 2) * 16, 'width': 16, 'height': 16}
        return element('chunk', place, self.cells_told(cells))

    def tile_layer(self):
        encoding, _, compression = self.format.partition('-')
        told = {'encoding': None if encoding == 'xml' else encoding, 'compression': compression or None}
        if self.is_infinite:
            columns = range(self.chosen.randrange(-2, 1), self.chosen.randrange(0, 3))
            data = ''.join(self.chunk(column) for column in columns if self.chosen.random() < 0.8)
        else:
            data = self.cells_told([self.cell() for _ in range(self.width * self.height)])
        head = {**self.common(), 'width': self.width, 'height': self.height}
        return element('layer', head, self.properties(), element('data', told, data))

    def object_layer(self):
        head = {**self.common(), 'color': self.maybe(0.3, self.color), 'draworder': self.one_of(0.3, 'index', 'topdown')}
        return element('objectgroup', head, self.properties(), *(self.object() for _ in range(self.chosen.randrange(6))))

    def image_layer(self):
        picture = element('image', {'source': 'tiles.png', 'trans': self.one_of(0.3, 'ff00ff'), 'width': 128, 'height': 64})
        return element('imagelayer', self.common(), picture if self.chosen.random() < 0.8 else '', self.properties())

    def layer(self, depth=0):
        kind = self.chosen.random()
        if kind < 0.4:
            return self.tile_layer()
        if kind < 0.75:
            return self.object_layer()
        if kind < 0.85 or depth > 2:
            return self.image_layer()
        head = self.common()
        return element('group', head, self.properties(), *(self.layer(depth + 1) for _ in range(self.chosen.randrange(3))))

    # ---- objects
    def corners(self):
        return ' '.join(f'{self.number()},{self.number()}' for _ in range(self.chosen.randrange(1, 6)))

    def words(self):
        flags = {name: self.one_of(0.3, 0, 1) for name in ('wrap', 'bold', 'italic', 'underline', 'strikeout', 'kerning')}
        told = {
            'fontfamily': self.one_of(0.3, 'Arial', 'DejaVu Sans'), 'pixelsize': self.one_of(0.4, 16, 20, 9), **flags,
            'color': self.maybe(0.3, self.color), 'halign': self.one_of(0.3, 'left', 'center', 'right', 'justify'),
            'valign': self.one_of(0.3, 'top', 'center', 'bottom'),
        }
        return element('text', told, escape(self.chosen.choice((*WORDS, 'two\nlines', ' '))))

    def shape(self):
        shapes = {
            'point': lambda: '<point/>', 'ellipse': lambda: '<ellipse/>', 'text': self.words, 'none': str,
            'polygon': lambda: element('polygon', {'points': self.corners()}), 'polyline': lambda: element('polyline', {'points': self.corners()}),
        }
        return shapes[self.chosen.choice(tuple(shapes))]()

    def object(self):
        self.object_id += self.chosen.randrange(1, 3)
        gid = self.maybe(0.2, lambda: self.chosen.randrange(1, 65) | self.chosen.choice((0, 1 << 31, 1 << 30)))
        sizes = {name: self.size() for name in ('width', 'height')} if gid or self.chosen.random() < 0.6 else {}
        head = {
            'id': self.object_id, 'name': self.one_of(0.5, *WORDS), 'type': self.one_of(0.4, 'Door', 'T t'), 'gid': gid, 'x': self.number(),
            'y': self.number(), **sizes, 'rotation': self.maybe(0.3, self.number), 'visible': self.one_of(0.2, 0, 1),
        }
        return element('object', head, self.properties(), '' if gid else self.shape())

    # ---- tilesets
    def tile(self, number):
        head = {'id': number, 'type': self.one_of(0.4, 'Water'), 'probability': self.one_of(0.3, 0.5, 0, 2, 0.1)}
        frames = (element('frame', {'tileid': self.chosen.randrange(32), 'duration': self.chosen.randrange(500)}) for _ in range(3))
        return element('tile', head, self.properties(), element('animation', {}, *frames) if self.chosen.random() < 0.3 else '')

    def wang_set(self):
        colors = (element('wangcolor', {'name': f'c{at}', 'color': self.color()[-7:], 'tile': -1, 'probability': 0.5}) for at in range(3))
        ids = (','.join(str(self.chosen.randrange(4)) for _ in range(8)) for _ in range(4))
        tiles = (element('wangtile', {'tileid': number, 'wangid': next(ids)}) for number in self.chosen.sample(range(32), 4))
        head = {'name': 'w', 'type': self.chosen.choice(('corner', 'edge', 'mixed')), 'tile': -1}
        return element('wangset', head, *colors, *tiles)

    def tileset(self, first):
        if self.chosen.random() < 0.4:
            return element('tileset', {'firstgid': first, 'source': 'tiles.tsx'})
        head = {
            'firstgid': first, 'name': self.chosen.choice(WORDS), 'tilewidth': 16, 'tileheight': 16, 'tilecount': 32, 'columns': 8,
            'backgroundcolor': self.maybe(0.2, self.color), 'objectalignment': self.one_of(0.3, 'bottomleft', 'top', 'center'),
        }
        picture = element('image', {'source': 'tiles.png', 'trans': self.one_of(0.3, '00ff00'), 'width': 128, 'height': 64})
        tiles = map(self.tile, sorted(self.chosen.sample(range(32), self.chosen.randrange(6))))
        sets = element('wangsets', {}, self.wang_set()) if self.chosen.random() < 0.4 else ''
        return element('tileset', head, self.properties(), picture, *tiles, sets)

    # ---- the map
    def text(self):
        tilesets = self.tileset(1) + self.tileset(33)
        layers = ''.join(self.layer() for _ in range(self.chosen.randrange(1, 6)))
        head = {
            'version': '1.8', 'tiledversion': '1.8.2', 'orientation': self.orientation,
            'renderorder': self.chosen.choice(('right-down', 'right-up', 'left-down', 'left-up')), 'width': self.width, 'height': self.height,
            'tilewidth': 16, 'tileheight': 16, 'infinite': int(self.is_infinite), 'compressionlevel': self.one_of(0.2, *range(10)),
            'hexsidelength': self.one_of(0.5, 8), 'staggeraxis': self.one_of(0.5, 'x', 'y'), 'staggerindex': self.one_of(0.5, 'odd', 'even'),
            'backgroundcolor': self.maybe(0.3, self.color), 'nextlayerid': self.layer_id + 5, 'nextobjectid': self.object_id + 5,
        }
        return f'<?xml version="1.0" encoding="UTF-8"?>\n{element("map", head, self.properties(0.6), tilesets, layers)}\n'


def some_map(chosen):
    """The bytes of a map."""
    return RandomMap(chosen).text().encode()
