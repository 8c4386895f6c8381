# SPDX-License-Identifier: MIT OR Apache-2.0
"""Adds things by the Python package: layers of each kind; objects of each shape, and such as a file has
them; tilesets as a file has them, and of an image; and takes out properties of any name. What calls take
stands in the map, and what is wrong with it is told before a line is said."""
import functools
import itertools
import sys

from lib.cases import Case, check_each, raised, see, unlike
from lib.places import TOP
from lib.said import Said, made

sys.path.insert(0, str(TOP / 'python'))
from roskevad import Editor, NotFound, Refused, Tileset  # noqa: E402

# What stands in the map of a rectangle without a name, a class and a size at 0, 0; and of a new layer.
PLAIN = {'height': 0, 'name': '', 'rotation': 0, 'type': '', 'visible': True, 'width': 0, 'x': 0, 'y': 0}
LAYER = {'opacity': 1, 'visible': True, 'x': 0, 'y': 0}
CORNERS = [{'x': 0, 'y': 0}, {'x': 8, 'y': -8}, {'x': 16, 'y': 0}]
ART = {
    'columns': 8, 'firstgid': 100, 'image': 'art.png', 'imageheight': 128, 'imagewidth': 128, 'margin': 0, 'name': 'art', 'spacing': 0,
    'tilecount': 64, 'tileheight': 16, 'tilewidth': 16,
}


# ---- layers


def test_layers_of_each_kind():
    with Editor() as editor:
        document = made(editor)
        houses, sky = document.layers.add('group', 'Houses'), document.layers.add('image', 'Sky')
        see([('tile', 1), ('object', 2), ('group', 3), ('image', 4)], [(layer.kind, layer.id) for layer in document.layers])
        see({**LAYER, 'id': 3, 'layers': [], 'name': 'Houses', 'type': 'group'}, houses.members)
        see({**LAYER, 'id': 4, 'image': '', 'name': 'Sky', 'type': 'imagelayer'}, sky.members)
        sky.members['image'] = 'sky.png'
        see(('sky.png', 0, 0, 5), (sky.members['image'], len(houses.layers), len(sky.objects), document.status.count))
        raised(ValueError, document.layers.add, 'group', '')
        raised(ValueError, document.layers.add, 'wall', 'Smithy')
        document.goto(2)
        see(2, len(document.layers))


def test_layers_with_a_note():
    """A layer with the note of how one was packed would be packed by it: it is refused, also in a group."""
    with Editor() as editor:
        document = made(editor)
        for name in ('roskevad_packed', 'roskevad_compression'):
            layer = {'type': 'tilelayer', 'id': 9, name: 'zlib'}
            raised(ValueError, document.layers.put, layer)
            raised(ValueError, document.layers.put, {'type': 'group', 'id': 8, 'layers': [layer]})
        see(2, document.status.count)


# ---- objects

SHAPES = [
    Case('a point', {'point': True}, {'point': True}),
    Case('an ellipse', {'width': 8, 'height': 9, 'ellipse': True}, {'ellipse': True, 'height': 9, 'width': 8}),
    Case('a polygon of pairs', {'polygon': [(0, 0), [8, -8.0], (16, 0)]}, {'polygon': CORNERS}),
    Case('a line as a file has it', {'polyline': CORNERS}, {'polyline': CORNERS}),
    Case('corners that are counted out', {'polygon': ((8 * at, -8 * (at % 2)) for at in range(3))}, {'polygon': CORNERS}),
    Case('no corner', {'polyline': []}, {'polyline': []}),
    Case('a text', {'text': 'two\nlines'}, {'text': {'text': 'two\nlines'}}),
    Case('a text as a file has it', {'text': {'text': 'a', 'wrap': True, 'color': '#ff8800'}}, {'text': {'color': '#ff8800', 'text': 'a', 'wrap': True}}),
    Case('a tile', {'width': 16, 'height': 16, 'tile': 2147483650}, {'gid': 2147483650, 'height': 16, 'width': 16}),
    Case('a class', {'class_name': 'Door "of" all'}, {'type': 'Door "of" all'}),
    Case('a turn', {'rotation': -90.0}, {'rotation': -90}),
    Case('hidden', {'visible': False}, {'visible': False}),
    Case('properties', {'properties': {'two words': '', 'a': 5, 'b': True}}, {'properties': [
        {'name': 'two words', 'type': 'string', 'value': ''}, {'name': 'a', 'type': 'int', 'value': 5}, {'name': 'b', 'type': 'bool', 'value': True}]}),
    Case('all at once', {'ellipse': True, 'class_name': 'Lake', 'rotation': 45, 'visible': 0, 'properties': {'deep': True}}, {
        'ellipse': True, 'type': 'Lake', 'rotation': 45, 'visible': False, 'properties': [{'name': 'deep', 'type': 'bool', 'value': True}]}),
    Case('a rectangle without a name', {}, {}),
]


def test_objects_of_each_shape():
    """Each is one step, last in its layer; undone, the layer is as it was."""

    def fault_of(case):
        with Editor() as editor:
            document = made(editor)
            things = document.layers['Things']
            before = things.members
            place = {name: case.given.pop(name, 0) for name in ('width', 'height')}
            thing = things.objects.add('', 5, -6.0, **place, **case.given)
            see((2, ['door', ''], 3, 'Add Object'), (thing.id, [each.name for each in things.objects], document.status.count, document.steps[-1].text))
            told = thing.members
            document.undo()
            return unlike({**PLAIN, 'id': 2, 'x': 5, 'y': -6, **case.wanted}, told) or unlike(before, things.members)

    check_each(SHAPES, fault_of)


def test_a_tile_and_an_object_as_values():
    """A tile is also that of another object, and a property an object."""
    with Editor() as editor:
        document = made(editor)
        objects = document.layers['Things'].objects
        first = objects.add('key', 0, 0, tile=document.tilesets[1].value(4))
        second = objects.add('', 0, 0, tile=first.tile, properties={'opens': objects['door'], 'of': first})
        see((5, 4, {'opens': 1, 'of': 2}), (second.tile.value, second.tile.local_id, dict(second.properties)))
        see(['object', 'object'], [second.properties.type_of(name) for name in second.properties])
        see((None, None), tuple(objects.add('', 0, 0, tile=none).tile for none in (None, 0)))


def test_which_line_is_said():
    """A rectangle whose name a line can have is added as ever, and all others as a file has them."""
    plain = [
        ((('key', 1, 2), {}), 'object add 2 1 2 0 0 key'),
        ((('two words', -1.0, 2.0, 3.0, 4), {}), 'object add 2 -1 2 3 4 two words'),
        ((('key', 1, 2), {'class_name': '', 'rotation': 0.0, 'visible': True, 'point': False, 'tile': 0, 'text': None, 'properties': {}}),
         'object add 2 1 2 0 0 key'),
    ]
    names = ['', 'a\nb', '\x7f', 'x' * 201, 'ü' * 101]

    def said_of(words, options):
        with Editor() as editor:
            document = made(editor)
            with Said(editor) as lines:
                see(words[0], document.layers['Things'].objects.add(*words, **options).name)
            return lines

    check_each([Case(line, given, [line]) for given, line in plain], lambda case: unlike(case.wanted, said_of(*case.given)))
    check_each([Case(ascii(name), name, True) for name in names], lambda case: unlike(
        True, [line.startswith('object put 2 {') for line in said_of((case.given, 1, 2), {})] == [True]))


def test_what_no_object_is():
    """It is told before a line is said."""
    wrong = [
        (TypeError, (5, 0, 0), {}), (TypeError, ('a', '0', 0), {}), (TypeError, ('a', 0, None), {}), (TypeError, ('a', 0, 0), {'polygon': 5}),
        (TypeError, ('a', 0, 0), {'polygon': [5]}), (TypeError, ('a', 0, 0), {'polygon': [(1, 2, 3)]}), (TypeError, ('a', 0, 0), {'polyline': [(1,)]}),
        (TypeError, ('a', 0, 0), {'polyline': ['ab']}), (TypeError, ('a', 0, 0), {'polyline': [{'x': 1}]}), (TypeError, ('a', 0, 0), {'text': 5}),
        (TypeError, ('a', 0, 0), {'tile': 'a'}), (TypeError, ('a', 0, 0), {'class_name': None}), (TypeError, ('a', 0, 0), {'rotation': '90'}),
        (TypeError, ('a', 0, 0), {'properties': ['a']}), (TypeError, ('a', 0, 0), {'properties': {5: 'a'}}),
        (TypeError, ('a', 0, 0), {'properties': {'a': None}}), (ValueError, ('a', float('nan'), 0), {}),
        (ValueError, ('a', 0, float('-inf')), {}), (ValueError, ('a', 1_000_000_001, 0), {}), (ValueError, ('a', 1e12, 0), {}), (ValueError, ('a', 0, 0, -1), {}),
        (ValueError, ('\ud800', 0, 0), {}), (ValueError, ('a', 0, 0), {'polygon': [(0, float('inf'))]}), (ValueError, ('a', 0, 0), {'tile': -1}),
    ]
    shapes = {'point': True, 'ellipse': True, 'polygon': CORNERS, 'polyline': CORNERS, 'text': 'a', 'tile': 5}
    wrong += [(ValueError, ('a', 0, 0), dict(pair)) for pair in itertools.combinations(shapes.items(), 2)]
    with Editor() as editor:
        document = made(editor)
        objects = document.layers['Things'].objects
        with Said(editor) as lines:
            check_each([Case(f'{words} {options}', (words, options), fault) for fault, words, options in wrong],
                       lambda case: raised(case.wanted, functools.partial(objects.add, *case.given[0], **case.given[1])) and None)
            for call in (document.objects.add, document.layers['Things'].objects.put):
                raised(TypeError, call)
            raised(ValueError, document.objects.add, 'a', 0, 0)
            raised(ValueError, document.objects.put, {})
            for members in (5, None, ['x'], 'x', [('x', 1)]):
                raised(TypeError, objects.put, members)
            for members, fault in (({1: 2}, TypeError), ({'a': print}, TypeError), ({'a': float('nan')}, ValueError), ({'a': '\udc80'}, ValueError)):
                raised(fault, objects.put, members)
        see(([], 1, 2), (lines, len(objects), document.status.count))


def test_what_is_refused_of_objects():
    """Nothing is done then."""
    rows = [
        (68, lambda things: things.add('a', 0, -1e9 - 0.5)), (68, lambda things: things.add('', 0, 0, 2_000_000_000)),
        (39, lambda things: things.add('a', 0, 0, 2_000_000_000)), (63, lambda things: things.put({'id': 2.5})), (63, lambda things: things.put({'x': 'a'})),
        (63, lambda things: things.put({'roskevad': []})), (63, lambda things: things.put({'a': [{'roskevad': 1}]})), (67, lambda things: things.put({'id': 1})),
        (68, lambda things: things.put({'y': 1_000_000_001})), (63, lambda things: things.put({'id': '7'})),
        (67, lambda things: things.put({'properties': [{'name': 'a', 'value': 1}, {'name': 'a', 'value': 2}]})),
    ]
    with Editor() as editor:
        document = made(editor)
        things = document.layers['Things']
        before = things.members
        see([code for code, _ in rows], [raised(Refused, call, things.objects).code for _, call in rows])
        ground = document.layers[1].objects
        see([31, 31, 31], [raised(Refused, call).code for call in (lambda: ground.put({}), lambda: ground.add('a', 0, 0), lambda: ground.add('', 0, 0))])
        see((before, 2), (things.members, document.status.count))
        things.remove()
        see([30, 30], [raised(Refused, call).code for call in (lambda: things.objects.put({}), lambda: things.objects.add('', 0, 0))])


def test_objects_as_a_file_has_them():
    """Nothing is added to what is said but an id, and what was removed comes back as it was, with its id."""
    with Editor() as editor:
        document = made(editor)
        objects = document.layers['Things'].objects
        see([({'id': 2}, 2), ({'id': 9}, 9), ({'id': 3, 'x': 1}, 3), ({'id': 10}, 10)],
            [(dict(thing.members), thing.id) for thing in map(objects.put, ({}, {'id': 9}, {'id': 3, 'x': 1.0}, {}))])
        see([1, 2, 9, 3, 10], [each.id for each in objects])
        door = objects['door']
        was = door.members.copy()
        door.remove()
        see((1, was), (objects.put(was).id, objects['door'].members))
        see([2, 9, 3, 10, 1], [each.id for each in objects])
        copied = objects.put({name: value for name, value in was.items() if name != 'id'})
        see((11, {**was, 'id': 11}), (copied.id, copied.members))
        shape = {'gid': 3, 'height': 8, 'name': 'a', 'own': [None, {'b': 1}], 'polygon': CORNERS, 'template': 'a.tx', 'width': 8, 'x': -3, 'y': 0}
        see({**shape, 'id': 12}, objects.put(shape).members)


def test_objects_in_macros():
    """A macro begins with its first object, and one that fails takes it back."""
    with Editor() as editor:
        document = made(editor)
        objects = document.layers['Things'].objects
        with document.macro('Spawn'), Said(editor) as lines:
            first = objects.add('', 1, 2, point=True)
            first.properties['team'] = 1
        see((['begin Spawn', 'object put', 'prop set'], 3), ([' '.join(line.split(' ')[:2]) for line in lines], document.status.count))
        document.undo()
        try:
            with document.macro('B'):
                objects.put({'x': 1})
                objects.put({'x': [0.5]})
        except Refused as refusal:
            see(63, refusal.code)
        see((1, 2), (len(objects), document.status.index))


# ---- tilesets


def test_tilesets_as_a_file_has_them():
    with Editor() as editor:
        document = made(editor)
        art = document.tilesets.put(ART)
        see((100, 'art', None, {name: value for name, value in ART.items() if name != 'firstgid'}), (art.first_id, art.name, art.source, art.members))
        see([(at, '', {}, []) for at in range(64)], [tuple(tile) for tile in art.tiles])
        document.stamp(1, 0, 0, [[art.value(5)]])
        see((Tileset(document, 100), 5), document.layers[1].tile(0, 0)[1:3])
        other = document.tilesets.put({'firstgid': 200, 'source': 'other.tsx'})
        see(('other.tsx', [1, 100, 200]), (other.source, [each.first_id for each in document.tilesets]))
        see([38, 62, 63, 63], [raised(Refused, document.tilesets.put, members).code for members in (
            {**ART, 'firstgid': 150}, {'name': 'a'}, {'firstgid': '300'}, {'firstgid': 300.5})])
        raised(TypeError, document.tilesets.put, [('firstgid', 300)])
        raised(ValueError, document.tilesets.put, {'firstgid': 300, 'name': '\ud800'})
        see(5, document.status.count)
        document.goto(2)
        see([1], [each.first_id for each in document.tilesets])


def test_tilesets_that_renumber():
    """A first id that would give a used tile another meaning is refused, as by `add`."""
    calls = {
        "tilesets.put({'firstgid': 33, ..})": lambda tilesets, **more: tilesets.put({**ART, 'firstgid': 33}, **more),
        "tilesets.add_from_image(33, 'art', ..)": lambda tilesets, **more: tilesets.add_from_image(33, 'art', 'art.png', 128, 128, 16, 16, **more),
    }

    def fault_of(case):
        with Editor() as editor:
            document = made(editor)
            document.stamp(1, 0, 0, [[40]])
            refusal = raised(Refused, case.given, document.tilesets)
            told = refusal.code, refusal.line, 'renumbers=True' in str(refusal.why), document.status.count
            return unlike((37, case.name, True, 3), told) or unlike(33, case.given(document.tilesets, renumbers=True).first_id)

    check_each([Case(name, call, None) for name, call in calls.items()], fault_of)


def count_along(side, tile, margin, spacing):
    """How many tiles Tiled cuts along a side of an image: one at each place at which it ends within the image."""
    return len(range(margin, side - tile + 1, tile + spacing))


def test_tilesets_of_an_image():
    """They have as many tiles as Tiled cuts."""
    grids = [(128, 128, 16, 16, 0, 0), (130, 132, 16, 16, 1, 1), (16, 16, 16, 16, 0, 0), (33, 32, 16, 16, 0, 1), (18, 35, 16, 16, 2, 1), (100, 75, 9, 32, 3, 5)]
    counts = [(8, 64), (7, 49), (1, 1), (2, 2), (1, 2), (7, 14)]

    def fault_of(case):
        width, height, *tile, margin, spacing = case.given
        columns, rows = count_along(width, tile[0], margin, spacing), count_along(height, tile[1], margin, spacing)
        see(case.wanted, (columns, columns * rows))
        with Editor() as editor:
            made_of = made(editor).tilesets.add_from_image(100, 'art', 'art.png', width, height, *tile, margin=margin, spacing=spacing)
            wanted = {'columns': columns, 'image': 'art.png', 'imageheight': height, 'imagewidth': width, 'margin': margin, 'name': 'art',
                      'spacing': spacing, 'tilecount': columns * rows, 'tileheight': tile[1], 'tilewidth': tile[0]}
            return unlike(wanted, made_of.members) or unlike((100, columns * rows), (made_of.first_id, len(made_of.tiles)))

    check_each([Case(str(grid), grid, count) for grid, count in zip(grids, counts)], fault_of)


def test_what_no_image_is():
    """It is told before a line is said."""
    wrong = [
        (ValueError, (100, 'a', 'a.png', 15, 16, 16, 16), {}), (ValueError, (100, 'a', 'a.png', 16, 15, 16, 16), {}),
        (ValueError, (100, 'a', 'a.png', 16, 16, 0, 16), {}), (ValueError, (100, 'a', 'a.png', 16, 16, 16, -1), {}),
        (ValueError, (100, 'a', 'a.png', 16, 16, 16, 16), {'margin': 1}), (ValueError, (100, 'a', 'a.png', 16, 16, 8, 8), {'spacing': -1}),
        (ValueError, (-1, 'a', 'a.png', 16, 16, 16, 16), {}), (ValueError, (100, '\ud800', 'a.png', 16, 16, 16, 16), {}),
        (TypeError, (100, None, 'a.png', 16, 16, 16, 16), {}), (TypeError, (100, 'a', None, 16, 16, 16, 16), {}),
        (TypeError, (100, 'a', 'a.png', '16', 16, 16, 16), {}), (TypeError, (100, 'a', 'a.png', 16, 16, 16.0, 16), {}),
    ]
    with Editor() as editor:
        tilesets = made(editor).tilesets
        with Said(editor) as lines:
            check_each([Case(f'{words} {options}', (words, options), fault) for fault, words, options in wrong],
                       lambda case: raised(case.wanted, functools.partial(tilesets.add_from_image, *case.given[0], **case.given[1])) and None)
        see(([], 1), (lines, len(tilesets)))


# ---- properties

# Names, and the words of the lines that take them out.
NAMES = {
    'plain': 'remove', 'two words': 'take', 'a\nb': 'take', '': 'take', ' ': 'take', '\x7f': 'take', 'x' * 200: 'remove', 'x' * 201: 'take',
    '"q"\\': 'remove', 'ü ö': 'take',
}


def test_properties_of_any_name():
    """Each is taken out by its name, and the others stay; undone, it is back in its place."""

    def fault_of(case):
        with Editor() as editor:
            document = made(editor)
            properties = [{'name': name, 'type': 'int', 'value': at} for at, name in enumerate(NAMES)]
            thing = document.layers['Things'].objects.put({'properties': properties})
            with Said(editor) as lines:
                see(list(NAMES).index(case.given), thing.properties.pop(case.given))
            see([case.wanted], [line.split(' ')[1] for line in lines])
            see([name for name in NAMES if name != case.given], list(thing.properties))
            raised(NotFound, thing.properties.__delitem__, case.given)
            see((4, 'Remove Property'), (document.status.count, document.steps[-1].text))
            document.undo()
            return unlike(list(NAMES), list(thing.properties))

    check_each([Case(ascii(name), name, word) for name, word in NAMES.items()], fault_of)


def test_all_properties():
    """A mapping's own calls take out any name, too; and what is not there is taken out by none."""
    with Editor() as editor:
        document = made(editor)
        thing = document.layers['Things'].objects.put({'properties': [{'name': name, 'value': ''} for name in NAMES]})
        see(5, thing.properties.pop('no such', 5))
        for name in ('no such', '\ud800', 'two  words'):
            raised(NotFound, thing.properties.__delitem__, name)
        see(list(NAMES)[0], thing.properties.popitem()[0])
        thing.properties.clear()
        see((0, 3 + len(NAMES)), (len(thing.properties), document.status.count))
