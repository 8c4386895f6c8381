# SPDX-License-Identifier: MIT OR Apache-2.0
"""What each edit does to a map, plainly: on the tree of its JSON text and a set of selected cells,
by the rules of docs/session-lines.md and docs/map-files.md."""
import json
from dataclasses import dataclass
from typing import Any, Callable, Optional

from lib.maps import (
    FLAGLESS,
    MOST_LAYERS,
    cells_of,
    layers_in,
    objects_in,
    set_cells,
    thing,
    things,
    tiles,
)

MOST_COLUMNS, MOST_CELLS, MOST_PIXELS = 4096, 1_048_576, 1_000_000_000
MOST_OBJECTS, MOST_ENTRIES, LAST_ID, LAST_FIRST_ID = 4096, 256, 2_147_483_647, 268_435_455


class Refused(Exception):
    """A line is refused with a code."""

    def __init__(self, code):
        super().__init__(code)
        self.code = code


@dataclass
class Draft:
    """A map that an edit changes, and its selected cells; where none is selected, all may be
    changed."""

    tree: dict
    selection: set

    def has(self, x, y):
        return 0 <= x < self.tree['width'] and 0 <= y < self.tree['height']

    def may_change(self, x, y):
        return self.has(x, y) and (not self.selection or (x, y) in self.selection)

    def rectangle(self, x, y, width, height):
        """The cells of a rectangle that are in the map."""
        right, below = min(x + width, self.tree['width']), min(y + height, self.tree['height'])
        return {
            (column, row) for row in range(max(y, 0), below) for column in range(max(x, 0), right)
        }

    def put(self, layer, values):
        """Gives cells of a layer these values, where they may be changed."""
        cells, columns = list(cells_of(layer)), self.tree['width']
        for (x, y), value in values.items():
            if self.may_change(x, y):
                cells[y * columns + x] = value
        set_cells(layer, cells)


# ---- what stands where


def tileset_of(tree, value):
    """The first id of the tileset that a value belongs to, or None."""
    ids = [
        tileset['firstgid']
        for tileset in tree['tilesets']
        if tileset['firstgid'] <= value % FLAGLESS
    ]
    return max(ids, default=None)


def siblings_of(tree, number):
    """The list that a layer stands in, and its place there."""
    lists = [
        tree['layers'],
        *(layer['layers'] for layer in layers_in(tree['layers']) if layer['type'] == 'group'),
    ]
    for layers in lists:
        for at, layer in enumerate(layers):
            if layer['id'] == number:
                return layers, at
    raise Refused(30)


def find_layer(tree, number, kind=None):
    layers, at = siblings_of(tree, number)
    if kind and layers[at]['type'] != kind:
        raise Refused(31)
    return layers[at]


def find_object(tree, number):
    for item in objects_in(tree):
        if item['id'] == number:
            return item
    raise Refused(34)


def find_owner(tree, owner):
    kind, _, number = owner.partition(':')
    if kind == 'map':
        return tree
    return find_layer(tree, int(number)) if kind == 'layer' else find_object(tree, int(number))


def find_tileset(tree, first_id):
    found = [tileset for tileset in tree['tilesets'] if tileset['firstgid'] == first_id]
    see(found, 36)
    return found[0]


def see(is_allowed, code):
    if not is_allowed:
        raise Refused(code)


# ---- cells and selections


def stamp(draft, number, x, y, width, values):
    layer = find_layer(draft.tree, number, 'tilelayer')
    see(all(tileset_of(draft.tree, value) for value in set(values) if value), 33)
    draft.put(
        layer,
        {(x + at % width, y + at // width): value for at, value in enumerate(values) if value},
    )


def erase(draft, number, x, y, width, height):
    layer = find_layer(draft.tree, number, 'tilelayer')
    draft.put(layer, dict.fromkeys(draft.rectangle(x, y, width, height), 0))


def fill(draft, number, x, y, value):
    layer = find_layer(draft.tree, number, 'tilelayer')
    see(draft.has(x, y), 32)
    see(value == 0 or tileset_of(draft.tree, value), 33)
    cells, columns = cells_of(layer), draft.tree['width']
    old = cells[y * columns + x]

    def is_free(column, row):
        return draft.may_change(column, row) and cells[row * columns + column] == old

    reached, more = set(), {(x, y)} if is_free(x, y) else set()
    while more:
        reached |= more
        beside = {
            (column + right, row + down)
            for column, row in more
            for right, down in ((1, 0), (-1, 0), (0, 1), (0, -1))
        }
        more = {cell for cell in beside - reached if is_free(*cell)}
    draft.put(layer, dict.fromkeys(reached, value))


def select(draft, mode, x, y, width, height):
    cells, own = draft.rectangle(x, y, width, height), draft.selection
    draft.selection = {
        'replace': cells,
        'add': own | cells,
        'subtract': own - cells,
        'intersect': own & cells,
    }[mode]


def select_none(draft):
    draft.selection = set()


def resize(draft, width, height, right, down):
    tree, columns = draft.tree, draft.tree['width']
    see(
        1 <= width <= MOST_COLUMNS and 1 <= height <= MOST_COLUMNS and width * height <= MOST_CELLS,
        39,
    )
    shifts = [('x', right * tree['tilewidth']), ('y', down * tree['tileheight'])]
    see(
        all(
            abs(item[name] + pixels) <= MOST_PIXELS
            for item in objects_in(tree)
            for name, pixels in shifts
            if name in item
        ),
        39,
    )
    for layer in layers_in(tree['layers']):
        if layer['type'] == 'tilelayer':
            cells = cells_of(layer)
            places = [(x - right, y - down) for y in range(height) for x in range(width)]
            set_cells(layer, [cells[y * columns + x] if draft.has(x, y) else 0 for x, y in places])
            layer.update(width=width, height=height)
    for item in objects_in(tree):
        for name, pixels in shifts:
            if name in item:
                item[name] += pixels
    tree.update(width=width, height=height)
    draft.selection = {
        (x + right, y + down) for x, y in draft.selection if draft.has(x + right, y + down)
    }


# ---- layers


def add_layer(draft, kind, name):
    tree, number = draft.tree, draft.tree['nextlayerid']
    see(sum(1 for _ in layers_in(tree['layers'])) < MOST_LAYERS and number < LAST_ID, 40)
    made = (
        tiles(number, tree['width'], tree['height'], name=name)
        if kind == 'tile'
        else things(number, name=name)
    )
    tree['layers'].append(made)
    tree['nextlayerid'] += 1


def remove_layer(draft, number):
    layers, at = siblings_of(draft.tree, number)
    del layers[at]


def move_layer(draft, number, place):
    layers, at = siblings_of(draft.tree, number)
    see(place < len(layers), 39)
    layers.insert(place, layers.pop(at))


def rename_layer(draft, number, name):
    find_layer(draft.tree, number)['name'] = name


def show_layer(draft, number, answer):
    find_layer(draft.tree, number)['visible'] = answer == 'yes'


# ---- objects


def add_object(draft, number, x, y, width, height, name):
    layer, tree = find_layer(draft.tree, number, 'objectgroup'), draft.tree
    see(width <= MOST_PIXELS and height <= MOST_PIXELS, 39)
    see(len(layer['objects']) < MOST_OBJECTS and tree['nextobjectid'] < LAST_ID, 40)
    layer['objects'].append(
        thing(tree['nextobjectid'], x=x, y=y, width=width, height=height, name=name)
    )
    tree['nextobjectid'] += 1


def move_object(draft, number, x, y):
    find_object(draft.tree, number).update(x=x, y=y)


def resize_object(draft, number, width, height):
    item = find_object(draft.tree, number)
    see(width <= MOST_PIXELS and height <= MOST_PIXELS, 39)
    item.update(width=width, height=height)


def remove_object(draft, number):
    find_object(draft.tree, number)
    for layer in layers_in(draft.tree['layers']):
        if layer['type'] == 'objectgroup':
            layer['objects'] = [item for item in layer['objects'] if item['id'] != number]


# ---- properties and tilesets


def set_property(draft, owner, key, kind, value):
    found = find_owner(draft.tree, owner)
    properties = found.get('properties', [])
    old = next((entry for entry in properties if entry['name'] == key), None)
    if old is None:
        see(len(properties) < MOST_ENTRIES, 40)
        found['properties'] = [*properties, old := {'name': key}]
    values = {'int': int, 'object': int, 'bool': lambda text: text == 'true'}
    old.update(type=kind, value=values.get(kind, str)(value))


def remove_property(draft, owner, key):
    found = find_owner(draft.tree, owner)
    left = [entry for entry in found.get('properties', []) if entry['name'] != key]
    see(len(left) < len(found.get('properties', [])), 35)
    found['properties'] = left
    if not left:
        del found['properties']


def add_tileset(draft, first_id, source):
    tilesets = draft.tree['tilesets']
    see(all(tileset['firstgid'] < first_id for tileset in tilesets), 38)
    see(1 <= first_id <= LAST_FIRST_ID, 39)
    see(len(tilesets) < MOST_ENTRIES, 40)
    tilesets.append({'firstgid': first_id, 'source': source})


def values_in(tree):
    """The values of all cells, and those of all objects that are tiles."""
    cells = {
        cell
        for layer in layers_in(tree['layers'])
        if layer['type'] == 'tilelayer'
        for cell in cells_of(layer)
    }
    return cells | {item['gid'] for item in objects_in(tree) if 'gid' in item}


def remove_tileset(draft, first_id):
    tree = draft.tree
    find_tileset(tree, first_id)
    see(all(tileset_of(tree, value) != first_id for value in values_in(tree)), 37)
    tree['tilesets'] = [tileset for tileset in tree['tilesets'] if tileset['firstgid'] != first_id]


# ---- the lines of the edits


def tile_list(text):
    return list(map(int, text.split(',')))


@dataclass(frozen=True)
class Edit:
    """An edit: what it does, how its fields are read, its text, whether it is no step where it
    changes nothing, and how many of its first fields a line with a `+` must share with the step
    before, or None where there is no such line."""

    act: Callable
    fields: tuple
    text: str
    vanishes: bool = False
    shared: Optional[int] = None
    action: Any = None

    def texts(self):
        return self.text, self.action or self.text.lower()


EDITS = {
    'stamp': Edit(stamp, (int, int, int, int, tile_list), 'Stamp', True, 1, 'stamp tiles'),
    'erase': Edit(erase, (int,) * 5, 'Erase', True, 1, 'erase tiles'),
    'fill': Edit(fill, (int,) * 4, 'Fill', True, None, 'fill area'),
    'select': Edit(select, (str, int, int, int, int), 'Select', True, None, 'change selection'),
    'select none': Edit(select_none, (), 'Select', True, None, 'change selection'),
    'resize': Edit(resize, (int,) * 4, 'Resize Map'),
    'layer add': Edit(add_layer, (str, str), 'Add Layer'),
    'layer remove': Edit(remove_layer, (int,), 'Remove Layer'),
    'layer move': Edit(move_layer, (int, int), 'Move Layer'),
    'layer rename': Edit(rename_layer, (int, str), 'Rename Layer', True),
    'layer show': Edit(show_layer, (int, str), 'Show Layer', True),
    'object add': Edit(add_object, (int,) * 5 + (str,), 'Add Object'),
    'object move': Edit(move_object, (int,) * 3, 'Move Object', True, 1),
    'object resize': Edit(resize_object, (int,) * 3, 'Resize Object', True),
    'object remove': Edit(remove_object, (int,), 'Remove Object'),
    'prop set': Edit(set_property, (str,) * 4, 'Set Property', True, 2),
    'prop remove': Edit(remove_property, (str, str), 'Remove Property'),
    'tileset add': Edit(add_tileset, (int, str), 'Add Tileset'),
    'tileset remove': Edit(remove_tileset, (int,), 'Remove Tileset'),
}


@dataclass(frozen=True)
class EditLine:
    """The line of an edit as it is read: its words, whether it has a `+`, and its values."""

    words: str
    follows: bool
    values: tuple

    @property
    def edit(self):
        return EDITS[self.words]

    def tag(self):
        """What a line with a `+` must have in common with the step before."""
        return self.words, self.values[: self.edit.shared or 0]


def read_edit(line):
    """An edit's line, or None for any other."""
    first, _, rest = line.partition(' ')
    second = rest.partition(' ')[0]
    for words, said, values in (
        (f'{first} {second}', f'{first} {second}', rest.partition(' ')[2]),
        (first, first, rest),
    ):
        words = said.rstrip('+')
        if words in EDITS:
            fields = EDITS[words].fields
            texts = values.split(' ', len(fields) - 1) if fields else []
            return EditLine(
                words, said != words, tuple(read(text) for read, text in zip(fields, texts))
            )
    return None


def edited(text, selection, line):
    """The text and the selection of a map behind an edit, or its refusal is raised."""
    draft = Draft(json.loads(text), set(selection))
    line.edit.act(draft, *line.values)
    return draft
