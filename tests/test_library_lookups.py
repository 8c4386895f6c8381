# SPDX-License-Identifier: MIT OR Apache-2.0
"""Compares what the library tells of one thing with the text of `show`, on 150 random maps with groups,
on maps that stand at the limits of groups and on example maps: the text of each object, layer and
tileset, the map's head, properties, lists of ids and layers, sizes, what is found by a name, and that
there is no more. The outline is put together from these texts, value by value as they are spelled, and
must be that of the map. The same behind edits, undos and redos; and how each open document stands,
beside `use` and `status`."""
import json
import random
import sys

from lib.cases import Case, check_each, passed, unlike
from lib.lookups import (
    Lookups,
    elements_of,
    encodings_of,
    head_of_layer,
    head_of_map,
    members_of,
    outline_of,
    rows_of,
    sizes_of,
)
from lib.maps import layers_in, objects_in, property_of, text_of, things
from lib.places import TOP, example_maps
from test_group_maps import TREES, random_edit, read_trees
from test_library_views import random_tree
from test_saved_maps import REFUSED as UNREAD

sys.path.insert(0, str(TOP / 'python'))
from roskevad import Editor  # noqa: E402
from roskevad.library import OWNERS  # noqa: E402

SEED = 20261128
NAMES = ['A', 'B', '', 'Ü "x" \\ / \u2028', '屋根', 'A ', 'a']
VALUES = [
    ('string', 'a\tb'),
    ('string', ''),
    ('int', -7),
    ('bool', True),
    ('class', {'b': [1, {'ü': None}], 'a': '"'}),
]
TURNS = ['undo', 'redo', 'undo', 'goto 0', 'goto 3']


def wanted_text(value):
    return text_of(value).decode()


def see(wanted, came, what):
    fault = unlike(wanted, came)
    assert not fault, f'{what}: {fault}'


# ---- one thing of the map


def see_lists(told, tree):
    """Sizes, and the ids of what there is."""
    see(sizes_of(tree), told.sizes(), 'sizes')
    see(list(rows_of(tree['layers'])), told.layers(), 'layers')
    see([item['firstgid'] for item in tree['tilesets']], told.ids('tilesets'), 'tilesets')
    see([item['id'] for item in objects_in(tree)], told.ids('object_ids', 0), 'all objects')
    for layer in layers_in(tree['layers']):
        is_list = layer['type'] == 'objectgroup'
        wanted = [item['id'] for item in layer['objects']] if is_list else None
        see(wanted, told.ids('object_ids', layer['id']), f'objects of layer {layer["id"]}')


def see_texts(told, tree):
    """The text of each thing, which stands so in the outline too, and the layers of the objects."""
    see(wanted_text(head_of_map(tree)), told.text('map_head'), 'the head of the map')
    for item in tree['tilesets']:
        see(wanted_text(item), told.text('tileset', item['firstgid']), 'a tileset')
    for layer in layers_in(tree['layers']):
        see(wanted_text(head_of_layer(layer)), told.text('layer', layer['id']), 'a layer')
        for item in layer['objects'] if layer['type'] == 'objectgroup' else ():
            see(wanted_text(item), told.text('object', item['id']), 'an object')
            see(layer['id'], told.number('object_layer', item['id']), 'the layer of an object')


def owners_in(tree):
    """Each owner of properties: its kind, its id, and its tree."""
    yield OWNERS['map'], 0, tree
    yield from ((OWNERS['layer'], layer['id'], layer) for layer in layers_in(tree['layers']))
    yield from ((OWNERS['object'], item['id'], item) for item in objects_in(tree))


def see_properties(told, tree):
    for kind, number, owner in owners_in(tree):
        properties = owner.get('properties', [])
        text = told.text('properties', kind, number)
        see(wanted_text(properties), text, f'properties of {kind}:{number}')
        for item, part in zip(properties, elements_of(text)):
            see(part, told.property(kind, number, item['name']), f'{item["name"]} of {kind}:{number}')
        absent = {*NAMES, 'kind', 'a', 'b'} - {item['name'] for item in properties}
        came = [told.property(kind, number, name) for name in sorted(absent)]
        see([None] * len(absent), came, f'properties that {kind}:{number} has not')


def see_found(told, tree):
    """What a walk in drawing order finds by a name."""
    for kind, parts in (
        (OWNERS['layer'], list(layers_in(tree['layers']))),
        (OWNERS['object'], objects_in(tree)),
    ):
        for name in {*NAMES, 'Added', 'none', *(part.get('name', '') for part in parts)}:
            wanted = next((part['id'] for part in parts if part.get('name') == name), None)
            see(wanted, told.found(kind, name), f'{name!r} as {kind}')


def see_absent(told, tree):
    """What is not there."""
    layers = {layer['id'] for layer in layers_in(tree['layers'])}
    objects = {item['id'] for item in objects_in(tree)}
    tilesets = {item['firstgid'] for item in tree['tilesets']}
    for number in {0, 1, 2, 5, 2**31, 2**32 - 1, tree['nextlayerid'], tree['nextobjectid'], *layers, *objects}:
        for there, calls in (
            (layers, [('layer', number), ('properties', OWNERS['layer'], number)]),
            (objects, [('object', number), ('properties', OWNERS['object'], number)]),
            (tilesets, [('tileset', number)]),
        ):
            if number not in there:
                see([None] * len(calls), [told.text(*call) for call in calls], f'{calls}')
        if number not in objects:
            see(None, told.number('object_layer', number), f'the layer of object {number}')
        if number not in layers and number != 0:
            see(None, told.ids('object_ids', number), f'objects of layer {number}')
        for kind in (0, 4, 2**32 - 1):
            see(None, told.text('properties', kind, number), f'properties of {kind}:{number}')


def see_outline(told, tree):
    """It is put together from the texts of single things."""
    outline = told.text('outline')
    came = outline_of(told, encodings_of(tree))
    see(json.loads(outline), json.loads(came), 'the outline')
    see(outline, came, 'the text of the outline')


def see_lookups(editor):
    told, tree = Lookups(editor), json.loads(editor.step('show')[len('map ') :])
    for see_some in (see_lists, see_texts, see_properties, see_found, see_absent, see_outline):
        see_some(told, tree)
        passed()


def fault_of_map(case):
    with Editor() as editor:
        editor.open_map('m', case.given)
        see_lookups(editor)


def test_maps_with_groups():
    check_each([Case(name, text_of(tree), None) for name, tree in read_trees()], fault_of_map)


def test_example_maps():
    """Those that are read."""
    maps = [Case(name, data, None) for name, data in example_maps().items() if name not in UNREAD]
    check_each(maps, fault_of_map)


# ---- random maps


def some_properties(chosen):
    names = chosen.sample(NAMES, chosen.randint(0, 3))
    return [property_of(name, *chosen.choice(VALUES)) for name in names if name]


def adorned(chosen, tree):
    """A map with more in it: properties, names of any letters, members of no kind that the editor
    knows, and objects without some of theirs."""
    parts = [*layers_in(tree['layers']), *objects_in(tree)]
    for part in [tree, *parts]:
        properties = some_properties(chosen)
        part.update({'properties': properties} if properties else {})
        part.update({'note': {'ü': [1, {}], 'a': None}} if chosen.random() < 0.2 else {})
    for part in parts:
        part['name'] = chosen.choice(NAMES)
    for item in objects_in(tree):
        for name in chosen.sample(['name', 'width', 'height', 'x', 'visible', 'type'], chosen.randint(0, 2)):
            del item[name]
    return tree


def fault_of_random_map(case):
    """How what is told of a random map differs, as it is opened and behind edits and turns."""
    chosen = random.Random(SEED + case.given)
    tree = adorned(chosen, random_tree(case.given))
    if chosen.random() < 0.5:
        rise(tree)
    with Editor() as editor:
        editor.open_map('m', text_of(tree))
        see_lookups(editor)
        for _ in range(4):
            for _ in range(6):
                editor.step_bytes(random_edit(chosen, editor.map()).encode())
            see_lookups(editor)
            editor.step_bytes(chosen.choice(TURNS).encode())
            see_lookups(editor)
            editor.step_bytes(chosen.choice(TURNS).encode())


def rise(tree):
    """Gives the objects other ids, which rise in drawing order."""
    for number, item in enumerate(objects_in(tree), 1):
        item['id'] = number


def test_random_maps():
    check_each(
        [Case(f'random map {number}', number, None) for number in range(TREES)],
        fault_of_random_map,
    )


def test_look_ups_between_edits():
    """A look-up leaves the way to the next edit and the next look-up as it is, whether ids rise or
    not."""
    for ids in (list(range(1, 41)), random.Random(SEED).sample(range(1, 9001), 40)):
        chosen = random.Random(SEED)
        tree = random_tree(3)
        tree['layers'].append(things(9000, *({'id': number} for number in ids)))
        with Editor() as editor:
            editor.open_map('m', text_of(tree))
            told, places = Lookups(editor), {}
            for _ in range(400):
                number = chosen.choice(ids)
                if chosen.random() < 0.5:
                    places[number] = chosen.randint(0, 99)
                    editor.step(f'object move {number} {places[number]} 5')
                item = {'id': number}
                item.update({'x': places[number], 'y': 5} if number in places else {})
                see(wanted_text(item), told.text('object', number), f'object {number}')
                see(9000, told.number('object_layer', number), f'the layer of object {number}')
            see_lookups(editor)


# ---- documents


def some_line(chosen):
    name = chosen.choice(['a', 'b', 'c', 'd'])
    return chosen.choice(
        [
            f'new {name} 4 3 16 16 a.tsj',
            f'use {name}',
            f'use {name}',
            'use -',
            f'discard {name}',
            'begin M',
            'end',
            *[f'stamp 1 {chosen.randint(0, 3)} 0 1 {chosen.randint(0, 9)}'] * 3,
            *['undo', 'undo', 'redo', 'clean', 'dirty', 'clear', f'limit {chosen.randint(0, 4)}'],
        ]
    )


def status_by_lines(editor, name, is_active):
    """How a document stands, by its own lines: it is active behind them."""
    editor.step(f'use {name}')
    place, clean, depth = editor.step('status').split(' ')[1:]
    index, count = map(int, place.split('/'))
    return {
        'index': index,
        'count': count,
        'depth': int(depth),
        'is_clean': int(clean == 'clean'),
        'is_active': int(is_active),
    }


def see_documents(editor):
    """Names, the active one, and how each stands; and that no document becomes active, and the last
    reply stays."""
    told = Lookups(editor)
    listed = editor.step('list').split(' ')[1:]
    names = [name.lstrip('*') for name in listed]
    active = next((at for at, name in enumerate(listed) if name.startswith('*')), None)
    came = [told.status_of(at) for at in range(len(names))]
    see(len(names), told.number('document_count'), 'how many documents')
    see(active, told.number('active'), 'the active document')
    see(names, [told.text('document_name', at) for at in range(len(names))], 'names')
    for at in (len(names), 2**32, 2**64 - 1):
        see((None, None), (told.status_of(at), told.text('document_name', at)), f'document {at}')
    see(listed, told.text('reply').split(' ')[1:], 'the last reply')
    see(listed, editor.step('list').split(' ')[1:], 'the active document behind it')
    wanted = [status_by_lines(editor, name, at == active) for at, name in enumerate(names)]
    see(wanted, came, 'how the documents stand')
    editor.step('use -' if active is None else f'use {names[active]}')


def test_documents():
    chosen = random.Random(SEED)
    with Editor() as editor:
        see_documents(editor)
        for _ in range(400):
            editor.step_bytes(some_line(chosen).encode())
            see_documents(editor)
            passed()


# ---- the test itself


def test_texts_that_are_taken_apart():
    """Names and values stay as they are spelled."""
    text = r'{"":[],"a":"\"}","ü":{"b":[1,2,{}],"c":-0},"\u00fcx":null}'
    members = members_of(text)
    see(['""', '"a"', '"ü"', r'"\u00fcx"'], list(members), 'names')
    see([r'"\"}"', '{"b":[1,2,{}],"c":-0}'], [members['"a"'], members['"ü"']], 'values')
    see(['1', '2', '{}'], elements_of(members_of(members['"ü"'])['"b"']), 'elements')
    see(([], {}), (elements_of('[]'), members_of('{}')), 'what is empty')
