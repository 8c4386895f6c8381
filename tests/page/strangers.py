# SPDX-License-Identifier: MIT OR Apache-2.0
"""Maps and tilesets of strangers: each has one member of another kind than Tiled's JSON format says, or is more
than the page shows."""
import copy
import json

from lib.places import EXAMPLE_MAPS

# A value that has no text.
NO_TEXT = {'toString': 1, 'valueOf': 1}
TILES = {
    'name': 'tiles', 'image': 'tiles.png', 'tilewidth': 16, 'tileheight': 16, 'tilecount': 32, 'columns': 8, 'spacing': 0, 'margin': 0,
}  # fmt: skip
THING = {'id': 1, 'name': 'thing', 'x': 20, 'y': 12, 'width': 30, 'height': 20}
SOME_TEXT = {'text': 'hello', 'pixelsize': 9, 'wrap': True}
POINTS = [{'x': 0, 'y': 0}, {'x': 24, 'y': 4}, {'x': 6, 'y': 22}]


def a_map(tileset='tiles.tsx'):
    """An example map with a layer of each kind, and two objects. Its first tile layer has the id 1."""
    told = json.loads((EXAMPLE_MAPS / 'layers.tmj').read_text())
    told['tilesets'] = [{'firstgid': 1, 'source': tileset}]
    things = {'id': 50, 'type': 'objectgroup', 'name': 'Things', 'objects': [{**THING}, {**THING, 'id': 2, 'x': 70}]}
    told['layers'] += [
        things,
        {'id': 51, 'type': 'imagelayer', 'name': 'Picture', 'image': 'tiles.png', 'offsetx': 40},
        {'id': 52, 'type': 'group', 'name': 'Group', 'layers': []},
    ]
    told.update(nextlayerid=100, nextobjectid=2_000_000)
    return told


def layer(told, kind):
    return next(each for each in told['layers'] if each['type'] == kind)


def thing(told):
    return layer(told, 'objectgroup')['objects'][0]


class Odd:
    """A map, or a tileset of a map, with an odd member, and the same without it. `named` is what the page says of it: nothing where the
    member is none of Tiled's."""

    def __init__(self, name, part, member, value, named=None, base=lambda told: None):
        self.name, self.part, self.member, self.value = name, part, member, value
        self.named = f'{member} of {named}' if named else None
        self.base = base

    def maps(self):
        """The odd map and the plain one."""
        plain = a_map()
        self.base(plain)
        odd = copy.deepcopy(plain)
        self.part(odd)[self.member] = self.value
        self.part(plain).pop(self.member, None)
        return [(json.dumps(each), {}) for each in (odd, plain)]


class OddSet(Odd):
    """The same of a tileset in JSON."""

    def maps(self):
        plain = {**TILES, 'tiles': [{'id': 1, 'animation': [{'tileid': 2, 'duration': 9}]}]}
        odd = copy.deepcopy(plain)
        self.part(odd)[self.member] = self.value
        self.part(plain).pop(self.member, None)
        return [(json.dumps(a_map('h.tsj')), {'h.tsj': json.dumps(each)}) for each in (odd, plain)]


def with_text(told):
    thing(told)['text'] = {**SOME_TEXT}


def with_form(form):
    return lambda told: told.update(orientation=form, staggeraxis='y', staggerindex='odd')


def of_kind(kind):
    return lambda told: layer(told, kind)


def itself(told):
    return told


def text_of(told):
    return thing(told)['text']


def first_tile(told):
    return told['tiles'][0]


OBJECT, TEXT = 'the object 1', 'the text of the object 1'
# One of each cause for which a page may throw, or draw nothing.
ODD = [
    Odd('a turn', thing, 'rotation', NO_TEXT, OBJECT),
    Odd('a turn in text', thing, 'rotation', '45', OBJECT),
    Odd('a class', thing, 'class', NO_TEXT, OBJECT),
    Odd('a corner list that is a number', thing, 'polygon', 5, OBJECT),
    Odd('a line that is a text', thing, 'polyline', '<img src=x>', OBJECT),
    Odd('a text that is none', thing, 'text', 5, OBJECT),
    Odd('words that are none', text_of, 'text', NO_TEXT, TEXT, with_text),
    Odd('a size of letters', text_of, 'pixelsize', NO_TEXT, TEXT, with_text),
    Odd('a size of letters below 0', text_of, 'pixelsize', -9, TEXT, with_text),
    Odd('a font', text_of, 'fontfamily', [None], TEXT, with_text),
    Odd('a colour of letters', text_of, 'color', NO_TEXT, TEXT, with_text),
    Odd('a place of letters', text_of, 'valign', 'constructor', TEXT, with_text),
    Odd('a tint', of_kind('tilelayer'), 'tintcolor', NO_TEXT, 'the layer '),
    Odd('a tint of a group', of_kind('group'), 'tintcolor', 7, 'the layer Group'),
    Odd('an opacity', of_kind('tilelayer'), 'opacity', 'NaN', 'the layer '),
    Odd('an offset', of_kind('imagelayer'), 'offsety', [None], 'the layer Picture'),
    Odd('a colour of objects', of_kind('objectgroup'), 'color', NO_TEXT, 'the layer Things'),
    Odd('an order of objects', of_kind('objectgroup'), 'draworder', NO_TEXT, 'the layer Things'),
    Odd('an image that is a list', of_kind('imagelayer'), 'image', [None], 'the layer Picture'),
    Odd('a clear colour', of_kind('imagelayer'), 'transparentcolor', NO_TEXT, 'the layer Picture'),
    Odd('a repeat', of_kind('imagelayer'), 'repeatx', 5, 'the layer Picture'),
    Odd('an orientation', itself, 'orientation', NO_TEXT, 'the map'),
    Odd('an order of drawing', itself, 'renderorder', 5, 'the map'),
    Odd('a colour behind the map', itself, 'backgroundcolor', NO_TEXT, 'the map'),
    Odd('an axis', itself, 'staggeraxis', NO_TEXT, 'the map', with_form('staggered')),
    Odd('a side of hexagons', itself, 'hexsidelength', '<b>', 'the map', with_form('hexagonal')),
    Odd('a side of hexagons below 0', itself, 'hexsidelength', -1000, 'the map', with_form('hexagonal')),
    OddSet('a name of the page for frames', itself, 'animated', 5),
    OddSet('a list for frames', itself, 'animated', [None]),
    OddSet('a name of the page for images', itself, 'pictures', 5),
    OddSet('a list for images', itself, 'pictures', [None]),
    OddSet('a name of a tileset', itself, 'name', NO_TEXT, 'the tileset h.tsj'),
    OddSet('a clear colour of tiles', itself, 'transparentcolor', NO_TEXT, 'the tileset h.tsj'),
    OddSet('tiles that are moved', itself, 'tileoffset', [None], 'the tileset h.tsj'),
    OddSet('a stand of tiles', itself, 'objectalignment', NO_TEXT, 'the tileset h.tsj'),
    OddSet('frames', first_tile, 'animation', 5, 'the tile 1 of the tileset h.tsj'),
]


def with_points(value):
    """Two maps: the points of a polygon, one of which is odd; and the other ones alone."""
    maps = [a_map(), a_map()]
    thing(maps[0])['polygon'] = [*POINTS[:1], value, *POINTS[1:]]
    thing(maps[1])['polygon'] = POINTS
    return [(json.dumps(each), {}) for each in maps]


# What stands in the place of a point.
ODD_POINTS = [None, 5, {'x': 'a', 'y': 1}, {'x': None, 'y': 1}, {'x': 1}, [1, 2]]


# ---- more than the page shows


def map_of_images(count, name, **more):
    """A map of that many image layers; `name` has a place for a number."""
    told = a_map()
    told['layers'] += [{'id': 60 + at, 'type': 'imagelayer', 'name': f'i{at}', 'image': name.format(at), **more} for at in range(count)]
    return json.dumps(told)


def map_of_tilesets(count):
    """A map of that many tilesets, each with an image of its own."""
    told = a_map()
    told['tilesets'] = [{'firstgid': 1 + 100 * at, 'source': f's{at}.tsj'} for at in range(count)]
    files = {f's{at}.tsj': json.dumps({**TILES, 'image': f's{at}.png'}) for at in range(count)}
    return json.dumps(told), files


def map_of_thing(**more):
    told = a_map()
    thing(told).update(more)
    return json.dumps(told)


def map_of_objects(count):
    """A map of that many objects besides, in layers of 4,000."""
    told = a_map()
    for first in range(0, count, 4000):
        objects = [
            {'id': 100 + at, 'name': f'n{at}', 'x': at % 128, 'y': at // 128 % 96, 'width': 9, 'height': 9}
            for at in range(first, min(count, first + 4000))
        ]
        told['layers'].append({'id': 53 + first // 4000, 'type': 'objectgroup', 'name': 'many', 'objects': objects})
    return json.dumps(told)


def map_of_texts(count, length):
    """A map of that many texts, of so many letters, which are hidden."""
    told = a_map()
    objects = [{**THING, 'id': 100 + at, 'visible': False, 'text': {'text': 'v' * length}} for at in range(count)]
    layer(told, 'objectgroup')['objects'] += objects
    return json.dumps(told)


def map_with_property(kind, value):
    told = a_map()
    told['properties'] = [{'name': 'long', 'type': kind, 'value': value}]
    return json.dumps(told)


SVG = '<svg xmlns="http://www.w3.org/2000/svg" width="64" height="64"><rect width="64" height="64" fill="red"/></svg>'


def gif(screen, picture):
    """A GIF of one colour, cut short, whose picture may be larger than its screen."""
    size = [length.to_bytes(2, 'little') for length in (*screen, *picture)]
    return b'GIF89a' + size[0] + size[1] + b'\x80\0\0' + b'\xff\0\0\0\0\0' + b',\0\0\0\0' + size[2] + size[3] + b'\0\x02\x02L\x01\0;'


def bmp(side, colour):
    """A BMP of one colour, red, green and blue."""
    row = bytes(reversed(colour)) * side
    rows = (row + b'\0' * (-len(row) % 4)) * side
    words = [54 + len(rows), 0, 54, 40, side, side]
    head = b'BM' + b''.join(word.to_bytes(4, 'little') for word in words) + b'\x01\0\x18\0' + bytes(24)
    return head + rows
