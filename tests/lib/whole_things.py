# SPDX-License-Identifier: MIT OR Apache-2.0
"""What each line for all edits does to a map, plainly, that adds a whole thing, takes one out or moves
one, gives a tileset another first id, or gives the map more room: on the tree of its JSON text, by the
rules of docs/session-lines.md."""
import base64
import struct

from lib.asides import LAYER, OBJECT, RESERVED, below, inside
from lib.edits import (
    EDITS,
    LAST_FIRST_ID,
    LAST_ID,
    MOST_ENTRIES,
    MOST_OBJECTS,
    Edit,
    add_layer,
    find_layer,
    find_object,
    find_owner,
    find_tileset,
    remove_object,
    remove_property,
    resize,
    see,
    siblings_of,
    tileset_of,
    values_in,
)
from lib.infinite import keep_place
from lib.json_texts import depth_of
from lib.json_words import MOST_READ, is_whole, json_word, object_word, sets_fractions_aside, tree_of
from lib.maps import FLAGLESS, MOST_INSIDE, MOST_LAYERS, cells_of, group, layer_of, layers_in, objects_in, set_cells, text_of
from lib.members import MOST_VALUE, notes_of, see_layer, see_object


def see_number(item, name, most):
    """A member that must be there, as a whole number from 1 on."""
    see(name in item, 62)
    see(is_whole(item[name]), 63)
    see(1 <= item[name] <= most, 68)


# ---- layers


def add_any_layer(draft, kind, name):
    if kind in ('tile', 'object'):
        add_layer(draft, kind, name)
        return
    tree, number = draft.tree, draft.tree['nextlayerid']
    see(sum(1 for _ in layers_in(tree['layers'])) < MOST_LAYERS and number < LAST_ID, 40)
    made = group(number, name=name) if kind == 'group' else layer_of(number, 'imagelayer', name=name, image='')
    tree['layers'].append(made)
    tree['nextlayerid'] += 1


def stands_right(layers, around=0):
    """Whether each of these layers, and each within its groups, stands in no more groups than it may."""
    return all(
        around < MOST_INSIDE and stands_right(layer['layers'], around + 1) if layer['type'] == 'group' else around <= MOST_INSIDE
        for layer in layers
    )


def see_depth(tree):
    """What a file had in a thing nests with it, which may be too deep at its new place."""
    see(depth_of(text_of(tree).decode()) <= MOST_READ, 39)


def move_layer_into(draft, number, parent, place):
    tree = draft.tree
    old, at = siblings_of(tree, number)
    new = find_layer(tree, parent, 'group')['layers'] if parent else tree['layers']
    see(all(inner['id'] != parent for inner in layers_in([old[at]])), 39)
    layer = old.pop(at)
    see(place <= len(new), 39)
    new.insert(place, layer)
    see(stands_right(tree['layers']), 39)
    see_depth(tree)


# ---- objects


def read_property(entry):
    """A property as a file has it. One whose type is not said is a text."""
    see(isinstance(entry, dict), 63)
    see('name' in entry, 62)
    see(isinstance(entry['name'], str), 63)
    see(isinstance(entry.setdefault('type', 'string'), str), 63)
    see('value' in entry, 62)


def read_properties(item):
    """The properties of an owner as a file has them. No list is as an empty one."""
    listed = item.get('properties', [])
    see(isinstance(listed, list), 63)
    see(len(listed) <= MOST_ENTRIES, 68)
    for entry in listed:
        read_property(entry)
    if not listed:
        item.pop('properties', None)


def names_differ(item):
    names = [entry['name'] for entry in item.get('properties', [])]
    return len({*names}) == len(names)


def put_object(draft, number, text):
    tree = draft.tree
    objects = find_layer(tree, number, 'objectgroup')['objects']
    item = object_word(text, OBJECT)
    if RESERVED in item:
        item[RESERVED] = notes_of(tree, tree_of(text))
    has_id, next_id = 'id' in item, tree['nextobjectid']
    if has_id:
        see_number(item, 'id', LAST_ID - 1)
    see_object(item, draft)
    read_properties(item)
    see(names_differ(item), 67)
    see(not has_id or all(other['id'] != item['id'] for other in objects_in(tree)), 67)
    see(len(objects) < MOST_OBJECTS and (has_id or next_id < LAST_ID), 40)
    item.setdefault('id', next_id)
    objects.append(item)
    tree['nextobjectid'] = max(next_id, item['id'] + 1)


def move_object_into(draft, number, layer_number, place):
    tree = draft.tree
    item, layer = find_object(tree, number), find_layer(tree, layer_number, 'objectgroup')
    remove_object(draft, number)
    others = layer['objects']
    see(place <= len(others), 39)
    see(len(others) < MOST_OBJECTS, 40)
    others.insert(place, item)
    see_depth(tree)


# ---- layers, with all that stand in them


def read_object(item, draft):
    see(isinstance(item, dict), 63)
    see_number(item, 'id', LAST_ID - 1)
    see_object(item, draft)
    read_properties(item)


def read_encoding(layer):
    """The form of a tile layer's cells: that of a list is not written."""
    encoding = layer.get('encoding', 'csv')
    see(isinstance(encoding, str) and encoding in ('csv', 'base64'), 63)
    if encoding == 'csv':
        layer.pop('encoding', None)
    compression = layer.pop('compression', '')
    see(isinstance(compression, str), 63)
    see(compression == '', 65)


def unpacked_cells(text):
    """The cells of a text in base64, or None."""
    try:
        data = base64.b64decode(''.join(text.split()), validate=True)
    except ValueError:
        return None
    return list(struct.unpack(f'<{len(data) // 4}I', data)) if len(data) % 4 == 0 else None


def read_cells(layer, count):
    """A tile layer without cells is empty, unless it has chunks."""
    if 'data' not in layer:
        see('chunks' not in layer, 62)
        layer['data'] = []
        set_cells(layer, [0] * count)
    is_packed = layer.get('encoding') == 'base64'
    see(isinstance(layer['data'], str if is_packed else list), 63)
    cells = unpacked_cells(layer['data']) if is_packed else layer['data']
    see(cells is not None and len(cells) == count and all(is_whole(cell) and 0 <= cell <= MOST_VALUE for cell in cells), 66)
    set_cells(layer, cells)


def read_tiles(layer, tree):
    read_encoding(layer)
    for name in ('width', 'height'):
        side = layer.setdefault(name, tree[name])
        see(isinstance(side, (int, float)) and not isinstance(side, bool), 63)
        see(is_whole(side) and side == tree[name], 66)
    read_cells(layer, tree['width'] * tree['height'])


def read_entries(item, name, most):
    """A list that must be there, of at most so many entries."""
    see(name in item, 62)
    see(isinstance(item[name], list), 63)
    see(len(item[name]) <= most, 68)
    return item[name]


def read_layer(layer, draft, counted, around=0):
    """A layer as a file has it, where so many layers were counted before those that stand in it; how many are then."""
    see(isinstance(layer, dict), 63)
    see('type' in layer, 62)
    see(layer['type'] in ('tilelayer', 'objectgroup', 'imagelayer', 'group'), 63)
    see_number(layer, 'id', LAST_ID - 1)
    see_layer(layer, draft)
    read_properties(layer)
    if layer['type'] == 'tilelayer':
        read_tiles(layer, draft.tree)
    if layer['type'] == 'objectgroup':
        for item in read_entries(layer, 'objects', MOST_OBJECTS):
            read_object(item, draft)
    if layer['type'] != 'group':
        return counted
    see('layers' in layer, 62)
    see(isinstance(layer['layers'], list), 63)
    see(around < MOST_INSIDE and counted + len(layer['layers']) <= MOST_LAYERS, 68)
    counted += len(layer['layers'])
    for inner in layer['layers']:
        counted = read_layer(inner, draft, counted, around + 1)
    return counted


def note_where_saved(tree, said, own, place=LAYER):
    """Gives each object in what a line says the notes of where it is saved."""
    if isinstance(own, list):
        for entry, inner in zip(said, own):
            note_where_saved(tree, entry, inner, inside(place))
    if not isinstance(own, dict):
        return
    if place == OBJECT and RESERVED in said:
        said[RESERVED] = notes_of(tree, own)
    for name, inner in own.items():
        note_where_saved(tree, said[name], inner, below(place, name))


def differ(ids):
    return len({*ids}) == len(ids)


def put_layer(draft, parent, place, text):
    tree = draft.tree
    siblings = find_layer(tree, parent, 'group')['layers'] if parent else tree['layers']
    layer = object_word(text, LAYER)
    if sets_fractions_aside():
        note_where_saved(tree, layer, tree_of(text))
    read_layer(layer, draft, 1)
    new, old = list(layers_in([layer])), list(layers_in(tree['layers']))
    items, others = objects_in({'layers': [layer]}), objects_in(tree)
    see(differ([each['id'] for each in new + old]) and differ([each['id'] for each in items + others]), 67)
    see(all(names_differ(owner) for owner in new + items), 67)
    see(place <= len(siblings), 39)
    siblings.insert(place, layer)
    see(stands_right(tree['layers']), 39)
    see_depth(tree)
    see(len(new) + len(old) <= MOST_LAYERS, 40)
    tree['nextlayerid'] = max([tree['nextlayerid'], *(each['id'] + 1 for each in new)])
    tree['nextobjectid'] = max([tree['nextobjectid'], *(each['id'] + 1 for each in items)])


# ---- properties, tilesets and the map's size


def put_property(draft, owner, text):
    found = find_owner(draft.tree, owner)
    entry = object_word(text)
    read_property(entry)
    listed = found.get('properties', [])
    at = next((at for at, other in enumerate(listed) if other['name'] == entry['name']), len(listed))
    see(at < MOST_ENTRIES, 40)
    found['properties'] = [*listed[:at], entry, *listed[at + 1 :]]


def take_property(draft, owner, text):
    find_owner(draft.tree, owner)
    name = json_word(text, is_right=lambda tree: isinstance(tree, str))
    remove_property(draft, owner, name)


def put_tileset(draft, text):
    item, tilesets = object_word(text), draft.tree['tilesets']
    see_number(item, 'firstgid', LAST_FIRST_ID)
    see(isinstance(item.get('source', ''), str), 63)
    see(all(other['firstgid'] < item['firstgid'] for other in tilesets), 38)
    see(len(tilesets) < MOST_ENTRIES, 40)
    tilesets.append(item)


def number_tileset(draft, first_id, number):
    tree = draft.tree
    tileset = find_tileset(tree, first_id)
    see(1 <= number <= LAST_FIRST_ID, 39)
    low, high = sorted((first_id, number))
    others = [other['firstgid'] for other in tree['tilesets'] if other is not tileset]
    see(not any(low <= other <= high for other in others), 38)
    new = {value: value + number - first_id if tileset_of(tree, value) == first_id else value for value in values_in(tree)}
    olds = {value: tileset_of(tree, value) for value in new}
    tileset['firstgid'] = number
    for value, moved in new.items():
        see(olds[value] != first_id or value % FLAGLESS + number - first_id < FLAGLESS, 39)
        see(tileset_of(tree, moved) == (number if olds[value] == first_id else olds[value]), 39)
    for layer in layers_in(tree['layers']):
        if layer['type'] == 'tilelayer':
            set_cells(layer, [new[cell] for cell in cells_of(layer)])
    for item in objects_in(tree):
        if 'gid' in item:
            item['gid'] = new[item['gid']]


def extend(draft, left, top, right, bottom):
    tree = draft.tree
    resize(draft, tree['width'] + left + right, tree['height'] + top + bottom, left, top)
    if sets_fractions_aside():
        keep_place(tree, left, top)


WHOLE_EDITS = {
    'layer add': Edit(add_any_layer, (str, str), 'Add Layer'),
    'layer into': Edit(move_layer_into, (int,) * 3, 'Move Layer'),
    'layer put': Edit(put_layer, (int, int, str), 'Add Layer'),
    'object put': Edit(put_object, (int, str), 'Add Object'),
    'object into': Edit(move_object_into, (int,) * 3, 'Move Object'),
    'prop put': Edit(put_property, (str, str), 'Set Property', True),
    'prop take': Edit(take_property, (str, str), 'Remove Property'),
    'tileset put': Edit(put_tileset, (str,), 'Add Tileset'),
    'tileset number': Edit(number_tileset, (int,) * 2, 'Renumber Tileset'),
    'extend': Edit(extend, (int,) * 4, 'Resize Map'),
}


def read_whole_things():
    """From now on the model reads these lines too."""
    EDITS.update(WHOLE_EDITS)
