# SPDX-License-Identifier: MIT OR Apache-2.0
"""Random edits of maps, as two people make them who do not know of one another: calls of the package, each of which may be refused."""
import sys

from lib.merges import layers_of
from lib.places import TOP

sys.path.insert(0, str(TOP / 'python'))
from roskevad import Error, Refused  # noqa: E402

NAMES = 'door', 'guard', 'key', ''
#: A tileset that is kept in the map, but for its name.
DRAWN = {'image': 'drawn.png', 'imagewidth': 64, 'imageheight': 32, 'tilewidth': 16, 'tileheight': 16, 'tilecount': 8, 'columns': 4, 'margin': 0, 'spacing': 0}


def edits(chosen, document, offset):
    """Edits that can be made now, by their kinds. `offset` notes by how much all in the map was moved."""
    layers, objects = list(document.layers.walk()), list(document.objects)
    tiles, holders, groups = ([layer for layer in layers if layer.kind == kind] for kind in ('tile', 'object', 'group'))
    owner = chosen.choice([document, *layers, *objects, *objects])
    tilesets = list(document.tilesets)
    value = chosen.choice(tilesets).value(chosen.randrange(6), flipped_vertically=chosen.random() < 0.2) if tilesets else 0
    x, y = chosen.randint(-1, min(document.width, 12)), chosen.randint(-1, min(document.height, 8))
    number = chosen.choice((0, 1, 16, 22.5, -3.25))
    return {
        'stamp': lambda: document.stamp(chosen.choice(tiles), x, y, [[chosen.choice((0, value, value)) for _ in range(4)] for _ in range(3)]),
        'erase': lambda: document.erase(chosen.choice(tiles), x, y, 3, 2),
        'fill': lambda: document.fill(chosen.choice(tiles), max(x, 0), max(y, 0), value),
        'object add': lambda: added(chosen, document, chosen.choice(holders), number),
        'object remove': lambda: chosen.choice(objects).remove(),
        'object move': lambda: chosen.choice(objects).members.update(x=number, y=chosen.choice((0, 8))),
        'object member': lambda: chosen.choice(objects).members.update(chosen.choice(
            ({'rotation': 45}, {'rotation': 12.5}, {'name': 'n'}, {'type': 'Door'}, {'visible': False}, {'width': number}))),
        'object into': lambda: chosen.choice(objects).move_into(chosen.choice(holders), chosen.choice((0, None))),
        'object back': lambda: moved_by_hand(chosen, chosen.choice(objects), chosen.choice(holders)),
        'object member gone': lambda: chosen.choice(objects).members.pop(chosen.choice(('rotation', 'visible', 'ellipse', 'point', 'type'))),
        'object tile': lambda: setattr(chosen.choice([each for each in objects if each.tile] or objects), 'tile', value or None),
        'text': lambda: text(chosen, chosen.choice([each for each in objects if 'text' in each.members])),
        'shape': lambda: chosen.choice(objects).members.update(chosen.choice(({'ellipse': True}, {'point': True}))),
        'layer add': lambda: painted(document, document.layers.add(chosen.choice(('tile', 'object', 'group', 'image')), chosen.choice(('A', 'B b'))), value),
        'layer in a group': lambda: painted(document, chosen.choice(groups).layers.add('tile', 'inner'), value),
        'layer put': lambda: document.layers.put(new_layer(chosen, New(document), value), chosen.choice([None, *groups]), chosen.randrange(2)),
        'layer back': lambda: put_back(chosen, document, chosen.choice(layers)),
        'layer remove': lambda: chosen.choice(layers).remove(),
        'layer into': lambda: chosen.choice(layers).move_into(chosen.choice([None, *groups]), chosen.choice((0, None))),
        'layer move': lambda: chosen.choice(layers).move(chosen.randrange(3)),
        'layer member': lambda: chosen.choice(layers).members.update(chosen.choice(
            ({'opacity': 0.25}, {'name': chosen.choice(('', 'L', 'M'))}, {'visible': False}, {'tintcolor': '#ff0000'}, {'offsetx': number}))),
        'prop set': lambda: owner.properties.set(chosen.choice(('a', 'b c', 'd')), chosen.choice((1, True, 1.5, '', 'x\ny', {'k': 1}))),
        'class member': lambda: of_class(chosen, [each for each in (document, *layers, *objects) if 'link' in each.properties]),
        'prop remove': lambda: owner.properties.pop(chosen.choice(list(owner.properties))),
        'map member': lambda: document.members.update(chosen.choice(({'backgroundcolor': '#112233'}, {'backgroundcolor': '#445566'}, {'class': 'Town'}))),
        'tileset add': lambda: document.tilesets.add(chosen.choice((900, 1000)), chosen.choice(('a.tsj', 'b.tsj'))),
        'tileset remove': lambda: chosen.choice(tilesets).remove(),
        'tileset number': lambda: document.tilesets.renumber(chosen.choice(tilesets), chosen.choice((500, 700, 900, 1100))),
        'tileset in the map': lambda: document.tilesets.put({'firstgid': chosen.choice((900, 1000)), 'name': chosen.choice(('drawn', 'kept')), **DRAWN}),
        'tileset member': lambda: chosen.choice(tilesets).members.update(origin=chosen.choice(('here', 'there'))),
        'extend': lambda: extended(chosen, document, offset),
        'cut': lambda: cut(chosen, document, offset),
    }


# How often each kind is chosen, where not once.
WEIGHTS = {'stamp': 8, 'erase': 2, 'object add': 4, 'object move': 6, 'object member': 4, 'shape': 4, 'prop set': 4, 'layer member': 2, 'layer move': 4,
           'layer into': 3, 'layer put': 3, 'layer back': 2, 'object into': 3, 'layer add': 2, 'tileset add': 3, 'extend': 3, 'class member': 4}


def added(chosen, document, layer, number):
    """An object, which may mean another one."""
    name = chosen.choice(NAMES)
    each = layer.objects.add(name, number, 8, point=chosen.random() < 0.3, properties={'a b': number})
    if chosen.random() < 0.5:
        each.properties.set('to', chosen.choice(list(document.objects)).id, type='object')


def moved_by_hand(chosen, each, layer):
    """Takes an object out, and puts it into a layer under its id, perhaps with another name."""
    members = {**each.members, **chosen.choice(({}, {'name': 'back'}))}
    each.remove()
    layer.objects.put(members)


def painted(document, layer, value):
    if layer.kind == 'tile' and value:
        document.stamp(layer, 1, 1, [[value, value]])


class New:
    """A document that things are added to, as a file has them: the next ids, and the objects that they may mean."""

    def __init__(self, document):
        tree = document.outline()
        self.ids = {'layer': tree['nextlayerid'], 'object': tree['nextobjectid']}
        self.objects = [each.id for each in document.objects]
        self.cells = document.width * document.height

    def id(self, chosen, kind):
        """A free id; some are left out."""
        id = self.ids[kind] + chosen.choice((0, 0, 0, 2))
        self.ids[kind] = id + 1
        return id


def new_layer(chosen, new, value, depth=0):
    """A layer as a file has it, with all in it: a group of layers, objects that mean others, or cells."""
    kind = chosen.choice(('objectgroup', 'tilelayer', *['group'] * (2 - depth)))
    layer = {'type': kind, 'id': new.id(chosen, 'layer'), 'name': chosen.choice(('A', 'put', 'p q')), 'visible': True, 'opacity': chosen.choice((1, 0.5))}
    if kind == 'group':
        return {**layer, 'layers': [new_layer(chosen, new, value, depth + 1) for _ in range(chosen.randrange(4))]}
    if kind == 'objectgroup':
        return {**layer, 'objects': [new_object(chosen, new) for _ in range(chosen.randrange(4))]}
    return {**layer, 'data': [chosen.choice((0, 0, value)) for _ in range(new.cells)]} if chosen.random() < 0.7 else layer


def new_object(chosen, new):
    each = {'id': new.id(chosen, 'object'), 'name': chosen.choice(NAMES), 'x': chosen.choice((0, 16, 22.5)), 'y': 24, 'width': 8, 'height': chosen.randrange(20)}
    new.objects.append(each['id'])
    if chosen.random() < 0.5:
        each['properties'] = [{'name': 'to', 'type': 'object', 'value': chosen.choice(new.objects[-3:])}]
    return each


def put_back(chosen, document, layer):
    """Takes a layer out, and puts it back with all in it, at another place."""
    tree = next(each for each, _ in layers_of(document.outline()) if each['id'] == layer.id)
    for each, _ in layers_of({'layers': [tree]}):
        if each['type'] == 'tilelayer':
            each.update(data=document.layers[each['id']].cells().tolist())
            each.pop('encoding', None)
    layer.remove()
    groups = [each for each in document.layers.walk() if each.kind == 'group']
    group = chosen.choice([None, *groups])
    document.layers.put(tree, group, chosen.randint(0, len(document.layers if group is None else group.layers)))


def text(chosen, each):
    """One member of the text of an object."""
    each.members['text'] = {**each.members['text'], **chosen.choice(({'bold': True}, {'text': 'A'}, {'text': 'B'}, {'color': '#00ff00'}))}


def of_class(chosen, owners):
    """A member of a property of a class, or the property itself."""
    owner = chosen.choice(owners)
    known = owner.properties['link']
    new = {**known, chosen.choice(('to', 'by', 'kept')): chosen.randrange(4)} if isinstance(known, dict) and chosen.random() < 0.9 else 1
    owner.properties.set('link', new, **({'type': 'class', 'property_type': 'Link'} if isinstance(new, dict) else {'type': 'int'}))


def extended(chosen, document, offset):
    """More columns and rows, once, on one side of each: by how much all was moved is to be found from the maps alone."""
    if len(offset) == 2:
        columns, rows = chosen.choice((0, 1, 2)), chosen.choice((0, 1, 2))
        left, top = chosen.choice((0, columns)), chosen.choice((0, rows))
        document.extend(left, top, columns - left, rows - top)
        offset[:] = left, top, 'extended'


def cut(chosen, document, offset):
    """A column or a row less, once, at one side."""
    if len(offset) == 2:
        columns, rows = chosen.choice(((1, 0), (0, 1), (1, 1)))
        left, top = chosen.choice((0, columns)), chosen.choice((0, rows))
        document.resize(document.width - columns, document.height - rows, -left, -top)
        offset[:] = -left, -top, 'cut'


def edit(chosen, document, offset, without=()):
    """One edit by chance, and its kind; None where it was refused, or there was nothing to edit."""
    kinds = edits(chosen, document, offset)
    kind = chosen.choice([each for each in kinds if each not in without for _ in range(WEIGHTS.get(each, 1))])
    try:
        kinds[kind]()
    except (Error, IndexError):
        return None
    return kind


def history(chosen, document, most, without=(), kind='json'):
    """Up to so many edits: by how much all was moved with them. What a file of a kind can't say is undone."""
    offset = [0, 0]
    for _ in range(chosen.randint(1, most)):
        before, index = list(offset), document.status.index
        edit(chosen, document, offset, without)
        if kind == 'tmx' and not is_said_in_xml(document):
            document.goto(index)
            offset = before
    return tuple(offset[:2])


def is_said_in_xml(document):
    try:
        document.save_bytes(kind='tmx')
    except Refused:
        return False
    return True
