# SPDX-License-Identifier: MIT OR Apache-2.0
"""Tries own members of objects, layers, tilesets and maps by the Python package: values by their names, and the
dicts that hold them; what no line can say and what the editor refuses; what changes nothing, merges
and is undone; macros; what files have of them, and what a save gives back."""
import base64
import copy
import functools
import json
import operator
import pickle
import sys
import zlib

from lib import maps
from lib.cases import Case, check_each, raised, see, unlike
from lib.places import TOP
from lib.said import Said, made

sys.path.insert(0, str(TOP / 'python'))
import roskevad  # noqa: E402
from roskevad import Editor, Refused  # noqa: E402

# What a new map has of its own, with a tile layer and the layer of things; and what these have.
MAP = {'nextlayerid': 3, 'nextobjectid': 2, 'orientation': 'orthogonal', 'renderorder': 'right-down', 'tileheight': 16, 'tilewidth': 16}
GROUND = {'height': 3, 'id': 1, 'name': 'Tile Layer 1', 'opacity': 1, 'type': 'tilelayer', 'visible': True, 'width': 4, 'x': 0, 'y': 0}
DOOR = {'height': 0, 'id': 1, 'name': 'door', 'rotation': 0, 'type': '', 'visible': True, 'width': 0, 'x': 3, 'y': 4}
THINGS = {'draworder': 'topdown', 'id': 2, 'name': 'Things', 'objects': [DOOR], 'opacity': 1, 'type': 'objectgroup', 'visible': True, 'x': 0, 'y': 0}
TILESET = {'source': 'a.tsj'}
# The members that other lines change, or none, of a layer of any kind, of a tileset and of the map.
OF_OTHER_LINES = {
    'layer': ['id', 'type', 'properties', 'data', 'chunks', 'startx', 'starty', 'objects', 'layers', 'width', 'height', 'encoding', 'compression'],
    'tileset': ['firstgid'],
    'map': ['width', 'height', 'infinite', 'chunks', 'data', 'objects', 'layers', 'tilesets', 'properties', 'type', 'version'],
}
DEEP = functools.reduce(lambda inner, _: [inner], range(88), 0)
# A fraction nests two deep more, as what stands for it does.
DEEP_HALF = functools.reduce(lambda inner, _: [inner], range(87), 0.5)


def owners(document):
    """What has own members there, by the words of lines."""
    things = {'object:1': document.objects['door'], 'layer:1': document.layers[1], 'layer:2': document.layers['Things']}
    return {**things, 'tileset:1': document.tilesets[1], 'map': document}


def of_each_owner(fault_of):
    """Looks at each owner of a document of its own."""

    def fault_of_one(case):
        with Editor() as editor:
            return fault_of(owners(made(editor))[case.given])

    check_each([Case(name, name, None) for name in ('object:1', 'layer:1', 'layer:2', 'tileset:1', 'map')], fault_of_one)


def document_of(thing):
    return getattr(thing, 'document', getattr(thing, '_document', thing))


# ---- what no line says, and what is refused


def endless():
    value = []
    value.append(value)
    return value


def fault_of_no_json(case):
    """How a value that no line can say does something else than raise its fault, or says a line, or None."""
    with Editor() as editor:
        document = made(editor)
        with Said(editor) as lines:
            for thing in owners(document).values():
                for call in (lambda value: thing.members.set('a', value), lambda value: thing.members.update(a=[value])):
                    raised(case.wanted, call, case.given)
        return unlike([], lines)


def test_values_that_no_line_says():
    check_each([
        Case('a set', {1}, TypeError), Case('bytes', b'a', TypeError), Case('a function', print, TypeError), Case('a complex', 1j, TypeError),
        Case('a name that is no text', {1: 2}, TypeError), Case('NaN', float('nan'), ValueError), Case('an infinity', {'a': -float('inf')}, ValueError),
        Case('half of a character', '\ud800', ValueError), Case('half of one in a name', {'\udc80': 1}, ValueError), Case('itself', endless(), ValueError),
    ], fault_of_no_json)


def test_typed_values_that_no_line_says():
    with Editor() as editor:
        document = made(editor)
        things = owners(document)
        rows = [
            ('object:1', 'name', None, TypeError), ('object:1', 'class_name', b'a', TypeError), ('object:1', 'rotation', True, TypeError),
            ('object:1', 'rotation', '90', TypeError), ('object:1', 'rotation', float('nan'), ValueError), ('object:1', 'tile', 1.5, TypeError),
            ('object:1', 'tile', 2**32, ValueError), ('object:1', 'name', '\ud800', ValueError),
            ('layer:1', 'class_name', None, TypeError), ('layer:1', 'class_name', '\ud800', ValueError), ('layer:1', 'opacity', '1', TypeError),
            ('layer:1', 'opacity', True, TypeError), ('layer:1', 'opacity', None, TypeError), ('layer:2', 'opacity', float('inf'), ValueError),
            ('layer:2', 'tint', 0xFF0000, TypeError), ('layer:2', 'tint', '\udc80', ValueError),
            ('tileset:1', 'source', 5, TypeError), ('tileset:1', 'source', '\ud800', ValueError), ('tileset:1', 'name', None, TypeError),
            ('tileset:1', 'class_name', None, TypeError), ('tileset:1', 'class_name', '\udc80', ValueError),
            ('map', 'class_name', 5, TypeError), ('map', 'class_name', None, TypeError), ('map', 'background', b'#102030', TypeError),
            ('map', 'background', '\ud800', ValueError),
        ]
        with Said(editor) as lines:
            for owner, name, value, kind in rows:
                raised(kind, setattr, things[owner], name, value)
            for thing in things.values():
                for name in ('', 'a b', 'a\nb', '\ud800'):
                    raised(ValueError, thing.members.set, name, 1)
                raised(TypeError, thing.members.set, 5, 1)
                raised(TypeError, thing.members.put, [('a', 1)])
        see([], lines)
        see(2, document.status.count)


# The name and a value that is refused, by the owner, with the code.
REFUSED_VALUES = {
    'object:1': [(63, 'rotation', {'roskevad': [1, 2]}), (63, 'x', 'left'), (63, 'x', [1.5]), (63, 'gid', 0.5), (68, 'y', 1e9 + 1.5),
                 (63, 'visible', 1), (68, 'x', 10**12), (41, 'id', 7), (41, 'properties', [])],
    'layer:1': [(63, 'name', 0.5), (63, 'name', 7), (63, 'visible', 1), (63, 'visible', None)],
    'layer:2': [(63, 'name', None), (63, 'visible', 'yes')],
    'tileset:1': [(63, 'source', 5), (63, 'source', None), (63, 'source', ['a.tsj'])],
    'map': [(63, 'tilewidth', 16.5), (63, 'tilewidth', 'wide'), (63, 'nextobjectid', None), (68, 'nextlayerid', 2), (68, 'nextlayerid', 1),
            (68, 'nextobjectid', 1)],
}
REFUSED_ANYWHERE = [(60, 'a', [DEEP]), (60, 'a', DEEP_HALF), (63, 'a', {'roskevad': 1}), (1, 'a', 'x' * 65_535)]


def rows_of_refused(owner):
    names = OF_OTHER_LINES.get(owner.partition(':')[0], [])
    return [*REFUSED_VALUES[owner], *REFUSED_ANYWHERE, *((41, name, 1) for name in names)]


def test_values_that_are_refused():
    """What the editor refuses is refused by it, and then none of several is set."""

    def fault_of(case):
        code, name, value = case.given[1:]
        with Editor() as editor:
            document = made(editor)
            thing, before = owners(document)[case.given[0]], document.map()
            codes = [raised(Refused, call).code for call in (
                lambda: thing.members.set(name, value), lambda: thing.members.put({'a': 1, name: value}),
                lambda: operator.setitem(thing.members, name, value), lambda: thing.members.set(name, value, merge=True),
            )]
            return unlike(([code] * 4, 2, before), (codes, document.status.count, document.map()))

    check_each([Case(f'{owner} {row[1]} {str(row[2])[:20]}', (owner, *row), None) for owner in REFUSED_VALUES for row in rows_of_refused(owner)], fault_of)


def test_the_reserved_name():
    """The member `roskevad` is none of any owner: 41, and in a text of JSON 63."""

    def fault_of(thing):
        codes = raised(Refused, thing.members.set, 'roskevad', 1).code, raised(Refused, thing.members.put, {'roskevad': 1}).code
        return unlike(((41, 63), 2), (codes, document_of(thing).status.count))

    of_each_owner(fault_of)


def test_what_can_be_set():
    """What nests as deep as it may, and any name that is one's own."""

    def fault_of(thing):
        thing.members['a'] = DEEP
        thing.members.put({'a b': {'"': [None, True, 'c\nd', {}, []]}})
        return unlike((DEEP, {'"': [None, True, 'c\nd', {}, []]}, 4), (thing.members['a'], thing.members['a b'], document_of(thing).status.count))

    of_each_owner(fault_of)


def test_members_that_stay():
    """A name that is none of own members is refused as 41 where it is taken out, and one that a map must have as 62."""
    with Editor() as editor:
        document = made(editor)
        rows = [(41, document.layers[number], name) for number in (1, 2) for name in OF_OTHER_LINES['layer']]
        rows += [(41, document, name) for name in OF_OTHER_LINES['map']] + [(41, document.objects[1], name) for name in ('id', 'properties')]
        rows += [(41, document.tilesets[1], 'firstgid')]
        rows += [(62, document, name) for name in ('tilewidth', 'tileheight', 'nextlayerid', 'nextobjectid')]
        for code, thing, name in rows:
            see((name, code), (name, raised(Refused, operator.delitem, thing.members, name).code))
        for thing, name in ((document.layers[2], 'objects'), (document.layers[1], 'width'), (document.objects[1], 'id')):
            see(41, raised(Refused, thing.members.pop, name, None).code)
        see((2, GROUND, THINGS, MAP), (document.status.count, document.layers[1].members, document.layers[2].members, document.members))
        # What a dict does not have, it gives the default of.
        see((None, None), (document.layers[1].members.pop('data', None), document.members.pop('layers', None)))


def test_what_was_removed():
    with Editor() as editor:
        document = made(editor)
        ground, door = document.layers[1], document.objects['door']
        tileset = document.tilesets[1]
        held = {30: ground.members, 34: door.members, 36: tileset.members}
        ground.remove()
        door.remove()
        tileset.remove()
        typed = [(30, ground, name, value) for name, value in (('class_name', 'a'), ('opacity', 0), ('tint', None), ('tint', '#fff'), ('locked', True))]
        typed += [(34, door, name, value) for name, value in (('class_name', 'a'), ('rotation', 0), ('tile', None))]
        typed += [(36, tileset, name, value) for name, value in (('source', 'b.tsj'), ('source', None), ('name', 'a'), ('class_name', 'a'))]
        for code, thing, name, value in typed:
            see(code, raised(Refused, setattr, thing, name, value).code)
            see(code, raised(Refused, getattr, thing, name).code)
        for code, members in held.items():
            calls = [
                lambda: members.set('a', 1), lambda: members.put({}), lambda: members.update(id=1), lambda: members.pop('name'), lambda: members.setdefault('a'),
                lambda: operator.delitem(members, 'none'),
            ]
            see([code] * 6, [raised(Refused, call).code for call in calls])


# ---- dicts


def test_members_are_a_dict():
    """So they are read as any other one; and what is no edit of one member or of some is none."""
    wholes = {'object:1': DOOR, 'layer:1': GROUND, 'layer:2': THINGS, 'tileset:1': TILESET, 'map': MAP}

    def fault_of(case):
        with Editor() as editor:
            document = made(editor)
            members, whole = owners(document)[case.given].members, case.wanted
            see((whole, whole, roskevad.OwnMembers, True), (members, json.loads(json.dumps(members)), type(members), isinstance(members, dict)))
            for other in (members.copy(), copy.copy(members), copy.deepcopy(members), pickle.loads(pickle.dumps(members))):
                other['a'] = 5
                see((dict, {**whole, 'a': 5}), (type(other), other))
            for call in (members.clear, members.popitem, functools.partial(operator.ior, members, {'a': 1})):
                raised(TypeError, call)
            see(2, document.status.count)
            told = raised(roskevad.NotFound, lambda: members['none']), raised(KeyError, members.pop, 'none'), raised(KeyError, operator.delitem, members, 'none')
            return unlike([f"{case.given} has no member 'none'"] * 3, [fault.args[0] for fault in told])

    check_each([Case(name, name, whole) for name, whole in wholes.items()], fault_of)


def test_edits_of_a_dict():
    """Each is one step, behind which the dict has what is there."""

    def fault_of(thing):
        document, members = document_of(thing), thing.members
        before = members.copy()
        members['b'] = 8
        see((8, 3), (thing.members['b'], document.status.count))
        document.undo()
        # A dict is as it was, until its next edit.
        see((8, before), (members['b'], thing.members))
        see((7, 7), (members.setdefault('a', 7), thing.members['a']))
        see((False, 7), ('b' in members, members.setdefault('a', 9)))
        members.update({'a': 1, 'c': [1.0]}, d=None)
        see({**before, 'a': 1, 'c': [1], 'd': None}, thing.members)
        see((1, 5, 'e'), (members.pop('a', None), members.pop('a', 5), members.pop('a', 'e')))
        del members['c']
        see({**before, 'd': None}, members)
        see((before, 6), (members.copy() if members.pop('d') is None else None, document.status.count - 1))
        texts = ['Set Member', 'Set Members', 'Remove Member', 'Remove Member', 'Remove Member']
        see(texts, [step.text for step in document.steps][2:])
        document.goto(2)
        return unlike(before, thing.members)

    of_each_owner(fault_of)


def test_a_list_in_a_dict():
    """It is a copy: it is set anew to change it."""

    def fault_of(thing):
        thing.members['a'] = [1]
        thing.members['a'].append(2)
        return unlike(([1], 3), (thing.members['a'], document_of(thing).status.count))

    of_each_owner(fault_of)


def test_what_comes_back():
    """A layer's name and whether it is shown stand in its file always: taken out, they have their defaults."""
    with Editor() as editor:
        document = made(editor)
        things = document.layers['Things']
        things.visible = False
        members = things.members
        del members['name']
        see(('', '', 4), (members['name'], things.name, document.status.count))
        see(False, members.pop('visible'))
        see((True, True, 5), (members['visible'], things.visible, document.status.count))
        del members['name'], members['visible']
        see(5, document.status.count)
        document.goto(2)
        see(THINGS, things.members)


# ---- fractions


def saved_objects(document):
    """The objects of the layer of things, as a file has them."""
    return json.loads(document.save_bytes())['layers'][1]['objects']


def test_places_off_whole_pixels():
    """An object lies where it is set to, and one that is set to whole pixels has no fraction any more."""
    with Editor() as editor:
        document = made(editor)
        door = document.objects['door']
        with Said(editor) as lines:
            door.x, door.y, door.width, door.height = 16.5, -0.25, 0.125, 8.75
        see([f'member set object:1 {said}' for said in ('x 16.5', 'y -0.25', 'width 0.125', 'height 8.75')], lines)
        see((16.5, -0.25, 0.125, 8.75), (door.x, door.y, door.width, door.height))
        see([{**DOOR, 'x': 16.5, 'y': -0.25, 'width': 0.125, 'height': 8.75}], saved_objects(document))
        door.x, door.height = 16, 8.0
        see((16, -0.25, 0.125, 8), (door.x, door.y, door.width, door.height))
        see([{**DOOR, 'x': 16, 'y': -0.25, 'width': 0.125, 'height': 8}], saved_objects(document))
        document.undo()
        document.undo()
        see((16.5, 8.75), (door.x, door.height))
        document.goto(2)
        see([DOOR], saved_objects(document))


def test_moves_and_sizes_off_whole_pixels():
    """They are said as own members where a number has a fraction, or had one: so it is gone then."""
    with Editor() as editor:
        document = made(editor)
        door = document.objects['door']
        with Said(editor) as lines:
            door.move(4, 5)
            door.move(4.5, 5)
            door.move(5, 5.5, merge=True)
            door.move(5, 5)
            door.move(5, 6, merge=True)
            door.resize(8, 8)
            door.resize(8.5, 9)
            door.resize(8, 9)
        see(['object move 1 4 5', 'member put object:1 {"x":4.5,"y":5}', 'member put+ object:1 {"x":5,"y":5.5}', 'member put object:1 {"x":5,"y":5}',
             'object move+ 1 5 6', 'object resize 1 8 8', 'member put object:1 {"width":8.5,"height":9}', 'member put object:1 {"width":8,"height":9}'], lines)
        see([{**DOOR, 'x': 5, 'y': 6, 'width': 8, 'height': 9}], saved_objects(document))
        see(9, document.status.count)
        document.goto(4)
        see((5, 5.5), (door.x, door.y))


def test_one_step_with_fractions():
    """An object is moved and turned at once, and a stroke that ends where it began is no step."""
    with Editor() as editor:
        document = made(editor)
        door = document.objects['door']
        door.members.update(x=16.5, y=8, rotation=22.5)
        see((16.5, 8, 22.5, 3), (door.x, door.y, door.rotation, document.status.count))
        see([{**DOOR, 'x': 16.5, 'y': 8, 'rotation': 22.5}], saved_objects(document))
        for degrees in (30.25, 45, 22.5):
            door.members.set('rotation', degrees, merge=True)
        see((22.5, 3), (door.rotation, document.status.count))
        with document.macro('M'):
            door.x, door.rotation = 16.5, 22.5
        see(3, document.status.count)
        with document.macro('M'):
            door.x = 16
        see((16, ['Add Layer', 'Add Object', 'Set Members', 'M']), (door.x, [step.text for step in document.steps]))


def test_fractions_anywhere():
    """In own members of each owner, in properties, in whole things, and in what is read and saved of them."""
    with Editor() as editor:
        document = made(editor)
        ground, things = document.layers[1], document.layers['Things']
        ground.opacity, things.members['parallaxx'], document.members['parallaxoriginx'] = 0.5, 1.25, -0.75
        document.properties['speed'] = 1.25
        document.properties['shop'] = {'open': True, 'prices': [0.5, 3]}
        ground.properties.set('depth', 2, type='float')
        gate = things.objects.add('gate', 1.5, 2, 3, 4.25, polygon=[(0, 0), (8.5, -8.5)], rotation=22.5, properties={'a': 0.1})
        put = things.objects.put({'x': 0.25, 'name': 'put', 'kept': [{'x': 1e300}]})
        art = document.tilesets.put({'firstgid': 100, 'name': 'art', 'tiles': [{'id': 0, 'probability': 0.5}]})
        see((0.5, 1.25, -0.75, 1.25, {'open': True, 'prices': [0.5, 3]}, 2.0), (
            ground.opacity, things.members['parallaxx'], document.members['parallaxoriginx'], document.properties['speed'], document.properties['shop'],
            ground.properties['depth']))
        see((1.5, 2, 3, 4.25, 22.5, 0.1), (gate.x, gate.y, gate.width, gate.height, gate.rotation, gate.properties['a']))
        see({'id': 3, 'x': 0.25, 'name': 'put', 'kept': [{'x': 1e300}]}, put.members)
        see(0.5, art.members['tiles'][0]['probability'])
        told, saved = document.map(), json.loads(document.save_bytes())
        see({**told, 'version': saved['version']}, saved)
        see((0.5, 1.25, -0.75, 8.5), (saved['layers'][0]['opacity'], saved['layers'][1]['parallaxx'], saved['parallaxoriginx'],
             saved['layers'][1]['objects'][1]['polygon'][1]['x']))
        assert 'roskevad' not in json.dumps([told, saved])
        document.goto(2)
        assert 'roskevad' not in document.save_bytes().decode()


def test_fractions_of_files():
    """A map that is opened with its fractions and edited, and one that is saved and opened again."""
    with Editor() as editor:
        document = editor.open(maps.text_of(maps.map_of(maps.tiles(1), maps.things(2, maps.thing(1, x=10.5, y=0.25)), nextobjectid=2, nextlayerid=3)))
        thing = document.objects[1]
        thing.y = 7
        see((10.5, 7), (thing.x, thing.y))
        thing.move(10, 7)
        see((10, 7), (thing.x, thing.y))
        thing.members.update(x=0.1, rotation=0.3)
        again = editor.open(document.save_bytes(), 'again')
        see((0.1, 7, 0.3), (again.objects[1].x, again.objects[1].y, again.objects[1].rotation))
        see(document.map(), again.map())


# ---- values by their names


def test_values_of_a_tileset():
    """Its file is another one, and the cells stay: so a tileset is replaced."""
    with Editor() as editor:
        document = made(editor)
        tileset, ground = document.tilesets[1], document.layers[1]
        document.stamp(ground, 0, 0, [[5]])
        with Said(editor) as lines:
            tileset.source = 'art/b "new".tsx'
            tileset.class_name = 'stone'
            tileset.members['origin'] = {'by': None}
        see([r'member set tileset:1 source "art/b \"new\".tsx"', 'member set tileset:1 class "stone"', 'member set tileset:1 origin {"by":null}'], lines)
        whole = {'class': 'stone', 'origin': {'by': None}, 'source': 'art/b "new".tsx'}
        see((whole, 'art/b "new".tsx', 'stone', 6), (tileset.members, tileset.source, tileset.class_name, document.status.count))
        see([{'firstgid': 1, **whole}], json.loads(document.save_bytes())['tilesets'])
        see(5, document.map()['layers'][0]['data'][0])
        tileset.source = None
        tileset.source = None
        see((None, None, 7), (tileset.source, tileset.members.get('source'), document.status.count))
        tileset.name = 'walls'
        see(('walls', {'class': 'stone', 'name': 'walls', 'origin': {'by': None}}), (tileset.name, tileset.members))
        document.goto(3)
        see((TILESET, ''), (tileset.members, tileset.class_name))


def test_values_of_a_layer():
    with Editor() as editor:
        document = made(editor)
        for layer in document.layers:
            document.goto(2)
            see(('', 1, None, False), (layer.class_name, layer.opacity, layer.tint, layer.locked))
            before = layer.members.copy()
            with Said(editor) as lines:
                layer.class_name, layer.opacity, layer.tint, layer.locked = 'a "b"\n', 0.0, '#80ff8800', 1
            owner = f'layer:{layer.id}'
            see([fr'member set {owner} class "a \"b\"\n"', f'member set {owner} opacity 0', f'member set {owner} tintcolor "#80ff8800"',
                 f'member set {owner} locked true'], lines)
            see(('a "b"\n', 0, '#80ff8800', True, 6), (layer.class_name, layer.opacity, layer.tint, layer.locked, document.status.count))
            see({**before, 'class': 'a "b"\n', 'opacity': 0, 'tintcolor': '#80ff8800', 'locked': True}, layer.members)
            layer.tint = None
            layer.tint = None
            see((None, False, 7), (layer.tint, 'tintcolor' in layer.members, document.status.count))
            layer.class_name, layer.locked = '', 0
            see(('', False, 9), (layer.class_name, 'locked' in layer.members, document.status.count))
            layer.locked = False
            see(9, document.status.count)
            layer.opacity = 0.5
            see((0.5, 10), (layer.opacity, document.status.count))
            document.goto(2)
            see(before, layer.members)


def test_values_of_a_map():
    with Editor() as editor:
        document = made(editor)
        see(('', None), (document.class_name, document.background))
        with Said(editor) as lines:
            document.class_name, document.background = 'level', '#102030'
        see(['member set map class "level"', 'member set map backgroundcolor "#102030"'], lines)
        see(('level', '#102030', 4), (document.class_name, document.background, document.status.count))
        see({**MAP, 'class': 'level', 'backgroundcolor': '#102030'}, document.members)
        document.background = None
        document.background = None
        see((None, {**MAP, 'class': 'level'}, 5), (document.background, document.members, document.status.count))
        document.members.update(tilewidth=8, tileheight=24, orientation='isometric')
        see((8, 24, 'isometric', 6), (document.tile_width, document.tile_height, document.orientation, document.status.count))
        document.members['nextlayerid'] = 7
        see(7, document.layers.add('tile', 'Walls').id)
        document.goto(2)
        see((16, 16, 'orthogonal', MAP), (document.tile_width, document.tile_height, document.orientation, document.members))


def test_what_changes_nothing():
    """It is no step: a value that is there, no value, and None where there is none."""
    with Editor() as editor:
        document = made(editor)
        ground = document.layers[1]
        ground.class_name, document.class_name, ground.members['a'] = 'a', 'b', {'x': 1, 'y': [2]}
        ground.class_name, ground.opacity, ground.tint, document.class_name, document.background = 'a', 1.0, None, 'b', None
        ground.members['a'] = {'y': [2], 'x': 1}
        ground.members.update(name='Tile Layer 1', visible=True, opacity=1)
        for thing in owners(document).values():
            thing.members.put({})
            thing.members.update(**{name: thing.members[name] for name in ('name', 'tilewidth') if name in thing.members})
        see(5, document.status.count)


def test_what_merges():
    """A setting with one of the same member of the same owner, members with members of the same owner; and it is gone where it ends as it
    began."""
    with Editor() as editor:
        document = made(editor)
        ground, things = document.layers
        for opacity in (0, 2, 3):
            ground.members.set('opacity', opacity, merge=True)
        see((3, 3), (ground.opacity, document.status.count))
        things.members.set('opacity', 3, merge=True)
        things.members.set('parallaxx', 3, merge=True)
        see(5, document.status.count)
        document.members.set('backgroundcolor', '#000000', merge=True)
        document.members.set('backgroundcolor', '#ffffff', merge=True)
        see(('#ffffff', 6), (document.background, document.status.count))
        document.members.put({'class': 'a'}, merge=True)
        document.members.put({'a': 1}, merge=True)
        ground.members.put({'b': 1}, merge=True)
        ground.members.put({'c': 1}, merge=True)
        see(8, document.status.count)
        document.goto(2)
        ground.members.set('opacity', 0, merge=True)
        ground.members.set('opacity', 1, merge=True)
        see((GROUND, 2), (ground.members, document.status.count))


def test_macros():
    """They wait for their first edit, and what changes nothing is none; and a macro that fails takes own members back."""
    with Editor() as editor:
        document = made(editor)
        ground = document.layers[1]
        with document.macro('A'), Said(editor) as lines:
            ground.opacity, ground.tint, document.background = 1, None, None
            ground.members.update(name='Tile Layer 1', x=0)
            del ground.members['visible']
            document.members.put({'tilewidth': 16, 'orientation': 'orthogonal'})
        see(['member set layer:1 opacity 1', 'member put layer:1 {"name":"Tile Layer 1","x":0}', 'member remove layer:1 visible',
             'member put map {"tilewidth":16,"orientation":"orthogonal"}'], lines)
        see(2, document.status.count)
        with document.macro('B'):
            document.members.put({})
            del ground.members['name']
            ground.tint, document.background = '#fff', '#000'
        see(('', 3), (ground.name, document.status.count))
        document.undo()
        see((GROUND, MAP), (ground.members, document.members))
        with document.macro('C'):
            document.background = '#000'
        see(['C'], [step.text for step in document.steps][2:])
        document.undo()
        try:
            with document.macro('D'):
                ground.locked = True
                ground.members['name'] = 0.5
        except Refused as refusal:
            see(63, refusal.code)
        see((GROUND, 2), (ground.members, document.status.index))


# ---- files


def drawn_map():
    """A map with layers of each kind, a packed one too, with fractions and members that Tiled writes."""
    sky = maps.layer_of(1, 'imagelayer', image='sky.png', opacity=0.25, repeatx=True, tintcolor='#ff8800')
    data = base64.b64encode(zlib.compress(bytes(8))).decode()
    inner = maps.tiles(3, encoding='base64', compression='zlib', data=data, **{'class': 'ground'})
    return maps.map_of(
        sky, maps.group(2, inner, locked=True, offsetx=1.5), maps.things(4, maps.thing(1)), backgroundcolor='#102030', compressionlevel=-1, parallaxoriginx=2.5,
        tiledversion='1.11.0', **{'class': 'level'})


def test_what_files_have():
    with Editor() as editor:
        document = editor.open(maps.text_of(drawn_map()))
        tree = document.outline()
        lists = [*OF_OTHER_LINES['map'], 'roskevad']
        see({name: value for name, value in tree.items() if name not in lists}, document.members)
        see(('level', '#102030', 2.5, -1), (document.class_name, document.background, *map(document.members.get, ('parallaxoriginx', 'compressionlevel'))))
        told = [(layer.class_name, layer.opacity, layer.tint, layer.locked) for layer in document.layers.walk()]
        see([('', 0.25, '#ff8800', False), ('', 1, None, True), ('ground', 1, None, False), ('', 1, None, False)], told)
        see(tree['layers'], [layer.members for layer in document.layers])
        see(('base64', 1.5), (document.layers[3].members['encoding'], document.layers[2].members['offsetx']))


def test_edits_of_files():
    """What an edit does not name stays, fractions too; and undone, the file has its bytes again."""
    with Editor() as editor:
        document = editor.open(maps.text_of(drawn_map()))
        before, saved, wanted = document.map(), document.save_bytes(), drawn_map()
        sky, houses, ground = document.layers[1], document.layers[2], document.layers[3]
        sky.opacity, houses.locked, ground.class_name, document.background = 1, False, 'floor', None
        sky.members['image'] = 'night.png'
        houses.members.put({'name': 'Houses', 'parallaxx': 2})
        document.members['parallaxoriginy'] = 3
        see(41, raised(Refused, houses.members.set, 'layers', []).code)
        first, second, _ = wanted['layers']
        first.update(opacity=1, image='night.png')
        del second['locked']
        second.update(name='Houses', parallaxx=2)
        second['layers'][0]['class'] = 'floor'
        del wanted['backgroundcolor']
        wanted['parallaxoriginy'] = 3
        see((wanted, 7), (json.loads(document.save_bytes()), document.status.count))
        document.goto(0)
        see((before, saved), (document.map(), document.save_bytes()))
