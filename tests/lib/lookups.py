# SPDX-License-Identifier: MIT OR Apache-2.0
"""What the library tells of the active map one thing at a time, and the outline that is put together from
it. A text is taken apart without reading what its values are, so that what is put together has each
value as it was spelled."""
import ctypes
import json
import struct
import sys
from typing import NamedTuple

from lib.maps import layers_in
from lib.places import TOP

sys.path.insert(0, str(TOP / 'python'))
from roskevad import library  # noqa: E402
from roskevad.library import DocumentStatus, MapSizes  # noqa: E402

# The kinds of layers by their words in a file.
KINDS = {'tilelayer': 'tile', 'objectgroup': 'object', 'group': 'group', 'imagelayer': 'image'}
# What a layer's own text leaves out, and that of the map.
OF_KIND = {
    'tilelayer': ('data', 'width', 'height', 'encoding'),
    'objectgroup': ('objects',),
    'group': ('layers',),
    'imagelayer': (),
}
LISTS = ('layers', 'tilesets')
# What a layer of a kind has as its count.
HELD = {'objectgroup': 'objects', 'group': 'layers'}
_DECODER = json.JSONDecoder()
# How a row of a layer lies in memory.
_ROW = struct.Struct('@4IN')


class Row(NamedTuple):
    """A layer in the list of all layers, with the word of its kind."""

    id: int
    parent: int
    kind: str
    is_visible: int
    held: int


# ---- texts


def members_of(text):
    """The members of an object of JSON that has no white space: names and values, as they are
    spelled."""
    assert text[0] == '{' and text[-1] == '}', text
    members, at = {}, 1
    while at < len(text) - 1:
        colon = _DECODER.raw_decode(text, at)[1]
        end = _DECODER.raw_decode(text, colon + 1)[1]
        members[text[at:colon]] = text[colon + 1 : end]
        at = end + 1
    return members


def elements_of(text):
    """The elements of an array of JSON that has no white space, as they are spelled."""
    assert text[0] == '[' and text[-1] == ']', text
    elements, at = [], 1
    while at < len(text) - 1:
        end = _DECODER.raw_decode(text, at)[1]
        elements.append(text[at:end])
        at = end + 1
    return elements


def object_of(members):
    """The text of an object with these members, in byte order of their names."""
    names = sorted(members, key=lambda name: json.loads(name).encode())
    return '{' + ','.join(f'{name}:{members[name]}' for name in names) + '}'


def array_of(elements):
    return '[' + ','.join(elements) + ']'


def with_members(text, more):
    """The text of an object with more members, none of which it has."""
    members = members_of(text)
    more = {json.dumps(name): value for name, value in more.items()}
    assert not members.keys() & more.keys(), f'{members.keys() & more.keys()} of {text}'
    return object_of({**members, **more})


# ---- what is told


class Lookups:
    """The calls of an editor that tell of one thing of the active map. None stands for what is not
    there."""

    def __init__(self, editor):
        self.editor = editor

    def text(self, call, *words):
        text = self.editor._copy_bytes(call, *words)
        return None if text is None else text.decode()

    def number(self, call, *words):
        answer = self.editor._call(call, *words)
        return None if answer == library.NONE else answer

    def listed(self, size, call, *words):
        """The bytes of a list whose members have so many each."""
        count = self.number(call, *words, None, 0)
        if count is None:
            return None
        room = ctypes.create_string_buffer(size * count)
        assert self.number(call, *words, room, count) == count
        return room.raw

    def ids(self, call, *words):
        rows = self.listed(4, call, *words)
        return None if rows is None else [number for number, in struct.iter_unpack('I', rows)]

    def layers(self):
        rows = self.listed(_ROW.size, 'layers')
        return None if rows is None else [row_of(*numbers) for numbers in _ROW.iter_unpack(rows)]

    def sizes(self):
        """The sizes by their names."""
        sizes = MapSizes()
        return None if self.number('sizes_of_map', sizes) is None else fields_of(sizes)

    def property(self, owner, number, name):
        word = name.encode()
        return self.text('property', owner, number, word, len(word))

    def found(self, subject, name):
        word = name.encode()
        return self.number('find', subject, word, len(word))

    def status_of(self, at):
        """How the document at a place stands, by the names of its fields."""
        status = DocumentStatus()
        return None if self.number('status_of', at, status) is None else fields_of(status)


def row_of(number, parent, kind, is_visible, held):
    return Row(number, parent, library.KINDS[kind], is_visible, held)


def fields_of(filled):
    return {name: getattr(filled, name) for name, _ in filled._fields_}


def outline_of(told, encodings):
    """The outline that is put together from what is told of single things. How the cells of a layer
    are encoded is told by no call: the encodings are given, by the layers' ids, as JSON."""
    rows, sizes = told.layers(), told.sizes()

    def text_of_layer(row):
        more = {}
        if row.kind == 'tile':
            more = {'width': str(sizes['width']), 'height': str(sizes['height'])}
            more.update({'encoding': encodings[row.id]} if row.id in encodings else {})
        elif row.kind == 'object':
            objects = told.ids('object_ids', row.id)
            more = {'objects': array_of(told.text('object', number) for number in objects)}
        elif row.kind == 'group':
            more = {'layers': layers_below(row.id)}
        return with_members(told.text('layer', row.id), more)

    def layers_below(number):
        return array_of(text_of_layer(row) for row in rows if row.parent == number)

    tilesets = array_of(told.text('tileset', number) for number in told.ids('tilesets'))
    return with_members(told.text('map_head'), {'layers': layers_below(0), 'tilesets': tilesets})


# ---- what is so, by the tree of the map


def rows_of(layers, parent=0):
    """The rows of the layers of a list, and of those that stand in them."""
    for layer in layers:
        kind = layer['type']
        inside = layer[HELD[kind]] if kind in HELD else ()
        yield Row(layer['id'], parent, KINDS[kind], int(layer['visible']), len(inside))
        if kind == 'group':
            yield from rows_of(layer['layers'], layer['id'])


def sizes_of(tree):
    return {
        'width': tree['width'],
        'height': tree['height'],
        'tile_width': tree['tilewidth'],
        'tile_height': tree['tileheight'],
        'next_layer': tree['nextlayerid'],
        'next_object': tree['nextobjectid'],
        'layers': sum(1 for _ in layers_in(tree['layers'])),
        'tilesets': len(tree['tilesets']),
    }


def head_of_layer(layer):
    return without(layer, OF_KIND[layer['type']])


def head_of_map(tree):
    return without(tree, LISTS)


def without(tree, names):
    return {name: value for name, value in tree.items() if name not in names}


def encodings_of(tree):
    """The encodings of the tile layers that have one, as JSON, by the layers' ids."""
    return {
        layer['id']: json.dumps(layer['encoding'])
        for layer in layers_in(tree['layers'])
        if layer['type'] == 'tilelayer' and 'encoding' in layer
    }
