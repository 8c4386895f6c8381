# SPDX-License-Identifier: MIT OR Apache-2.0
"""Makes 20,000 sessions by chance of the lines for all edits: they set, put and remove own members of objects, layers and
the map, put objects, layers with all in them, properties and tilesets, take properties out, add groups and image layers, move layers and objects into
other ones, give tilesets other first ids, and give the map more room. Other edits, clean marks, undos, limits and macros stand between them. Some begin with
groups in groups, up to as many as there may be, with a full owner of properties, or with a map that has a full layer or things
that nest too deep for others. It compares the replies of the program with those of the plain model of tests/lib/model.py. 10,000
more are heard with `--all-maps`, where fractions are set aside; 400 more save their maps, and the files are compared, too."""
import functools
import random
from copy import deepcopy

from lib.asides import OPTION as ALL_MAPS
from lib.asides import TiledPlay, fault_of_tiled_run
from lib.cases import CORES, check_each, in_processes
from lib.edits import MOST_ENTRIES, MOST_OBJECTS
from lib.json_words import set_fractions_aside
from lib.maps import MOST_INSIDE, group, layers_in, map_of, objects_in, packed, text_of, thing, things, tiles
from lib.members import read_members
from lib.model import Play
from lib.places import SESSIONS
from lib.sessions import ALL_EDITS, check_together
from lib.whole_things import read_whole_things

SEED, RUNS, LINES = 20261130, 20_000, 14
# So many sessions begin with a map with a full layer, for which the model is slow, and so many with one of deep things.
FULL_RUNS, DEEP_RUNS = 60, 1500
# So many sessions set fractions aside, and so many of others save their map, too, with its fractions put back.
ASIDE_RUNS, SAVING_RUNS = 10_000, 400
# How many sessions the program hears in one run.
AT_ONCE = 2500
KINDS = ('group', 'objectgroup', 'tilelayer', 'imagelayer')
OWN = (
    'name', 'type', 'rotation', 'visible', 'x', 'y', 'width', 'gid', 'point', 'polygon', 'kept',
    'opacity', 'tilewidth', 'tileheight', 'nextlayerid', 'nextobjectid', 'source',
)
OTHERS = ('id', 'firstgid', 'properties', 'roskevad', 'k.l', 'layers', 'data', 'encoding', 'tilesets', 'version')
VALUES = {
    'name': ('""', '"door"', '"Tür 1"', '"a\\nb"', 'null', '7'),
    'type': ('""', '"Spawn"', '3', '{"a":[1,{}]}'),
    'rotation': ('0', '45', '-90', ' 90', '22.5', '1e3', '"x"'),
    'visible': ('true', 'false', '0'),
    'x': ('16', '16.5', '-0.25', '0', '-8', '1000000000', '1000000001', '-0', '1000000000.5', '1e300', 'true', '[1.5]'),
    'y': ('8', '8.75', '0', '-1000000000.5', '"8"'),
    'width': ('24', '0.125', '0', '-0.5', '[]'),
    'gid': ('0', '3', '2147483651', '4294967295', '4294967296', '-1', '"3"'),
    'point': ('true', '[1,', '1 2'),
    'polygon': ('[{"x":0,"y":0},{"x":8,"y":-8}]', '[{"x":0.5,"y":-8.25}]', '[]', '[1.25]', '{"roskevad":[1]}', '{"roskevad":1.5}'),
    'kept': ('[' * 88 + ']' * 88, '[' * 86 + '0.5' + ']' * 86, '[' * 87 + '0.5' + ']' * 87, '[' * 89 + ']' * 89, '{"b":1,"a":[null,false]}'),
    'opacity': ('0.5', '0', '1', '"x"'),
    'tilewidth': ('8', '16', '65535', '65536', '0', '8.5', '"8"'),
    'tileheight': ('8', '1', '-1', 'null'),
    'nextlayerid': ('3', '9', '2', '0', '2147483647', '2147483648', 'true'),
    'nextobjectid': ('3', '9', '2', '0', '2147483647', '2147483648', '[]'),
    'source': ('"u.tsj"', '"v.tsx"', '""', 'null', '5', '0.5'),
}
OWNERS = (
    ('object:1',) * 5 + ('object:2',) * 2 + ('object:9',)
    + ('layer:1',) * 3 + ('layer:2',) * 2 + ('layer:9',) + ('map',) * 4
    + ('tileset:1',) * 3 + ('tileset:9',)
)
BEFORE = (
    'new t 3 2 16 16 t.tsj',
    'layer add object Things',
    'object add 2 16 16 8 8 door',
    'object add 2 0 0 8 8 b',
    'prop set object:1 a int 1',
    'prop set map b string two words',
    'clear',
)
# What some sessions begin with beside it: groups in groups, with the object layer 2 in one of them and another one beside.
GROUPS = (
    *('layer add group G',) * 3,
    'layer into 4 3 0',
    'layer into 2 4 0',
    'layer add object More',
    'object add 6 0 0 8 8 c',
    'clear',
)
# As many groups in one another as there may be, from the layer 3 on, and two more groups and an object layer that stand in none.
DEEP_GROUPS = (
    *('layer add group G',) * MOST_INSIDE,
    *(f'layer into {inner} {inner - 1} 0' for inner in range(4, 3 + MOST_INSIDE)),
    *('layer add group H',) * 2,
    'layer into 20 19 0',
    'layer add object More',
    'clear',
)
# An owner that has room for one more property.
FULL_OWNER = (
    'object put 2 {"properties":[' + ','.join(f'{{"name":"p{at}","value":1}}' for at in range(MOST_ENTRIES - 1)) + ']}',
    'clear',
)
# What an object is put with, by the name of each member.
GIVEN = {
    **{name: VALUES[name] for name in ('name', 'type', 'rotation', 'visible', 'x', 'y', 'width', 'gid', 'polygon')},
    'point': ('true', 'false', '[1,'),
    'kept': ('{"b":1,"a":[null,false]}', '[' * 87 + ']' * 87, '[' * 88 + ']' * 88),
    'height': ('8', '8.5', '1000000000', '1000000001', 'null'),
    'id': ('3', '9', '4', '1', '2', '5', '20', '0', '-1', '2147483646', '2147483647', '"3"', '3.5'),
    'properties': (
        '[{"name":"a","value":1}]', '[{"name":"a","type":"float","value":0.5}]', '[]', '[{"name":"b c","type":"bool","value":true},{"name":"a","value":"x"}]',
        '[{"name":"a","value":1},{"name":"a","value":2}]', '[{"name":"a"}]', '[{"value":1}]', '[{"name":1,"value":1}]', '{}', '[7]',
        '[{"name":"","type":"class","propertytype":"T","value":{"k":[1]}}]', '[{"name":"a","type":1,"value":1}]',
    ),
}
# What a layer is put with, by the name of each member: the first two are right.
LAYER_MEMBERS = {
    'name': ('"Roof"', '"Tür"', '7', 'null'),
    'visible': ('false', 'true', '0'),
    'opacity': ('1', '0.5', '"x"'),
    'kept': ('{"b":1,"a":[null,false]}', '0', '[' * 87 + ']' * 87, '[' * 88 + ']' * 88),
    'properties': (*GIVEN['properties'][:2], *GIVEN['properties'][4:]),
    'x': ('0', '1.5', '{"roskevad":1}'),
}
NAMES = ('"a"', '"b"', '"b c"', '""', '"A"', ' "a" ', '"\\u0061"', '7', '["a"]', '"a', '0.5', '{"roskevad":"a"}', '"\\ud800"')
TILESETS = (
    '{"firstgid":50}', '{"firstgid":100,"source":"b.tsj"}', '{"source":"c.tsj","firstgid":101,"name":"c"}', '{"firstgid":1}', '{}',
    '{"firstgid":0}', '{"firstgid":268435455}', '{"firstgid":268435456}', '{"firstgid":"5"}', '{"firstgid":60,"source":7}', '[]',
    '{"firstgid":70,"tiles":[{"id":0,"probability":0.5}]}', '{"firstgid":80,"tiles":[{"id":0,"properties":[]}]}', '{"firstgid":90',
)
PROPERTIES = (
    '{"name":"two words","type":"string","value":"a\\nb"}', '{"name":"two words","type":"bool","value":true}', '{"name":"a","value":1}',
    '{"name":"a","type":"int","value":1}', '{"value":"two words","name":"b"}', '{"name":"b","type":"class","propertytype":"T","value":{"k":[1]}}',
    '{"name":"","type":"float","value":3.25}', '{"name":"b c","type":"list","value":[]}', '{"name":"\\u0061","value":null,"kept":{"b":1}}',
    '{"name":"p7","value":2}', ' {"name":"a","type":"int","value":1} ', '{"name":"x","value":' + '[' * 87 + ']' * 87 + '}',
    '{}', '[]', '7', '{"name":"a"}', '{"value":1}', '{"name":1,"value":1}', '{"name":"a","type":null,"value":1}', '{"name":"a","value":0.5}',
    '{"name":"a","value":{"roskevad":1}}', '{"name":"x","value":' + '[' * 88 + ']' * 88 + '}', '{"name":"a","value":1', '"\\ud800"',
)


def nest(depth):
    """A value that nests so deep."""
    return [nest(depth - 1)] if depth > 1 else []


def in_groups(layer, first, count):
    """A layer inside so many groups, the innermost of which has the first number."""
    for number in range(first, first + count):
        layer = group(number, layer)
    return layer


def deep_map():
    """A map whose objects and layers have things that may stand where they are, and not in each other layer."""
    own = things(2, thing(1, kept=nest(122)), thing(2, properties=[{'name': 'a', 'type': 'class', 'value': nest(118)}]), thing(3))
    inner = things(3, thing(4, kept=nest(90)), thing(5, kept=nest(60)))
    return map_of(
        tiles(1, kept=nest(124)),
        own,
        in_groups(inner, 10, MOST_INSIDE),
        in_groups(tiles(4, kept=nest(100)), 30, 3),
        group(5, kept=nest(124)),
        group(6, things(7, thing(6, kept=nest(120)))),
    )


def full_map():
    """A map with a layer that has room for one object more, and with one of three objects."""
    objects = [{'id': number} for number in range(1, MOST_OBJECTS)]
    return map_of(tiles(1), things(2, *objects), things(3, *({'id': number} for number in (5001, 5002, 5003))))


FILES = {'deep.tmj': text_of(deep_map()), 'full.tmj': text_of(full_map())}
# An infinite map with two objects.
PLANE = SESSIONS / 'all_edits' / 'maps' / 'plane.tmj'


def member_line(chosen):
    """A line of own members."""
    owner, form = chosen.choice(OWNERS), chosen.random()
    name = chosen.choice(OWN if chosen.random() < 0.9 else OTHERS)
    plus = '+' * (chosen.random() < 0.5)
    if form < 0.6:
        return f'member set{plus} {owner} {name} {chosen.choice(VALUES.get(name, ("1",)))}'
    if form < 0.8:
        names = chosen.sample(OWN, chosen.randint(0, 3)) + ['id'] * (chosen.random() < 0.05)
        said = ','.join(f'"{one}":{chosen.choice(VALUES.get(one, ("1",))[:3])}' for one in names)
        return f'member put{plus} {owner} {{{said}}}' if chosen.random() < 0.95 else (
            f'member put {owner} [1]')
    return f'member remove {owner} {name}'


def object_text(chosen):
    """The text of an object, mostly a right one."""
    if chosen.random() < 0.06:
        return chosen.choice(('{', '[]', '1.5', '7', '{"roskevad":1}', '{} {}', '{"a":1e400}', '{"a":-0}', '"\\ud800"'))
    names = chosen.sample(sorted(GIVEN), chosen.randint(0, 4))
    first = 3 if chosen.random() < 0.8 else None
    return '{' + ','.join(f'"{name}":{chosen.choice(GIVEN[name][:first])}' for name in names) + '}'


def cells_by_chance(chosen, tree):
    """What a tile layer has of its cells, by the names of members; mostly right."""
    cells = [chosen.choice((0, 0, 1, 2, 7, 4294967295)) for _ in range(tree['width'] * tree['height'])]
    right = ({}, {'data': str(cells)}, {'encoding': '"base64"', 'data': f'"{packed(cells)}"'}, {'encoding': '"base64"'}, {'encoding': '"csv"'})
    wrong = (
        {'data': '[1]'}, {'data': '""'}, {'chunks': '[]'}, {'data': str(cells), 'chunks': '[]'}, {'encoding': '"zip"'}, {'encoding': '1'},
        {'compression': '"zlib"'}, {'compression': '""'}, {'compression': '7'}, {'encoding': '"base64"', 'data': '"AAA="'},
        {'width': '9999'}, {'height': '"1"'}, {'width': str(tree['width'])}, {'height': '0.5'}, {'data': str(cells[1:] + [-1])},
    )
    return chosen.choice(right if chosen.random() < 0.85 else wrong)


def layer_text(chosen, tree, around=0):
    """The text of a layer with all in it, mostly a right one."""
    if chosen.random() < 0.04:
        return chosen.choice(('{', '[]', '1.5', '7', '{}', '{"roskevad":1}', '{"type":"layer"}', '{"type":5}', '{"type":"group"}', 'null'))
    kind = chosen.choice(KINDS if around < 3 else KINDS[1:])
    members = {'type': f'"{kind}"', 'id': str(chosen.randint(20, 400))}
    if chosen.random() < 0.12:
        members['id'] = chosen.choice(GIVEN['id'])
    for name in chosen.sample(('name', 'visible', 'opacity', 'kept', 'properties', 'x'), chosen.choice((0, 0, 1, 2))):
        members[name] = chosen.choice(LAYER_MEMBERS[name][: 2 if chosen.random() < 0.85 else None])
    if kind == 'tilelayer':
        members.update(cells_by_chance(chosen, tree))
    elif kind != 'imagelayer' and chosen.random() < 0.97:
        text_of_one = (lambda: placed_object_text(chosen)) if kind == 'objectgroup' else (lambda: layer_text(chosen, tree, around + 1))
        members['objects' if kind == 'objectgroup' else 'layers'] = f'[{",".join(text_of_one() for _ in range(chosen.choice((0, 1, 1, 2, 3))))}]'
    return '{' + ','.join(f'"{name}":{value}' for name, value in members.items()) + '}'


def placed_object_text(chosen):
    """The text of an object that mostly says an id of its own."""
    text = object_text(chosen)
    is_right = text[:1] == '{' and text[-1:] == '}' and '"id"' not in text and chosen.random() < 0.95
    return f'{{"id":{chosen.randint(20, 900)}{"," if len(text) > 2 else ""}{text[1:]}' if is_right else text


def layer_line(chosen, tree):
    """A line that puts a layer with all in it, mostly where it may stand."""
    layers, groups, _, _ = parts_of(tree)
    return f'layer put {chosen.choice((0, 0, 0, *groups, *groups, *layers[:1], 9))} {chosen.choice((0, 0, 0, 1, 1, 2, 5))} {layer_text(chosen, tree)}'


def whole_line(chosen):
    """A line that adds a whole thing, or takes a property out."""
    form = chosen.random()
    owner = chosen.choice(('map', 'object:1', 'object:1', 'object:3', 'object:3', 'layer:1', 'layer:3', 'layer:9', 'object:9'))
    if form < 0.4:
        return f'object put {chosen.choice((2,) * 9 + (3, 4, 1, 9))} {object_text(chosen)}'
    if form < 0.5:
        return f'layer add {chosen.choice(("group", "image"))} {chosen.choice(("A", "two words"))}'
    if form < 0.65:
        return f'prop take {owner} {chosen.choice(NAMES)}'
    if form < 0.9:
        return f'prop put {owner} {chosen.choice(PROPERTIES[:12] if chosen.random() < 0.8 else PROPERTIES)}'
    return f'tileset put {chosen.choice(TILESETS)}'


def parts_of(tree):
    """The ids of all layers, those of the groups, those of the object layers, and those of the objects."""
    layers = list(layers_in(tree['layers']))
    kinds = [[layer['id'] for layer in layers if layer['type'] in kind] for kind in (KINDS, KINDS[:1], KINDS[1:2])]
    return (*kinds, [item['id'] for item in objects_in(tree)])


def place_line(chosen, document):
    """A line that moves a layer or an object into another, gives a tileset another first id, or the map more room. It mostly names things
    that are there."""
    form, tree = chosen.random(), document.tree
    layers, groups, holders, objects = parts_of(tree)
    place = chosen.choice((0, 0, 0, 1, 1, 2, 3))
    if form < 0.45:
        return f'layer into {chosen.choice((*layers, *groups, 9))} {chosen.choice((0, *groups, *groups, *layers[:1], 9))} {place}'
    if form < 0.85:
        some = (*objects[:6], *objects[-2:], 99)
        place = chosen.randint(MOST_OBJECTS - 4, MOST_OBJECTS) if len(objects) > 99 and chosen.random() < 0.4 else place
        return f'object into {chosen.choice(some)} {chosen.choice((*holders, *holders, *layers[:1], 9))} {place}'
    if form < 0.92:
        firsts = [tileset['firstgid'] for tileset in tree['tilesets']]
        near = [first + step for first in firsts for step in (-2, -1, 1, 2)]
        others = (0, 1, 2, 3, 40, 268435450, 268435455, 268435456, 4294967295)
        return f'tileset number {chosen.choice((*firsts, *firsts, 9))} {max(chosen.choice((*firsts, *near, *others)), 0)}'
    most = chosen.choice((0, 1, 1, 2, 2, 4095, 4294967295))
    return 'extend ' + ' '.join(str(chosen.choice((0, 0, 1, most))) for _ in range(4))


def other_line(chosen, document):
    """A line of another kind."""
    lines = (
        'undo', 'undo', 'redo', f'goto {chosen.randint(0, 6)}', 'clean', 'begin m', 'end', 'status',
        f'object move{"+" * chosen.randint(0, 1)} 1 {chosen.choice((0, 16))} 8',
        'object resize 1 24 8', 'object remove 2', 'prop set object:1 a int 1', 'show', 'undotext',
        'layer rename 1 Ground', 'layer add tile T', 'layer add object O', 'layer remove 2', 'object add 2 0 0 8 8 c', 'object remove 1',
        'object move+ 3 8 8', 'prop set object:3 a int 2', 'prop set+ map a int 3', 'tileset remove 50', 'stamp 1 0 0 2 2,101',
        'layer move 3 0', 'layer remove 4', 'select replace 0 0 2 1', 'resize 3 2 -1 1',
    )
    line = chosen.choice(lines)
    return 'status' if line == 'begin m' and document.levels else line


def line_by_chance(chosen, document):
    kind = chosen.random()
    if kind < 0.27:
        return whole_line(chosen)
    if kind < 0.43:
        return member_line(chosen)
    if kind < 0.53:
        return layer_line(chosen, document.tree)
    return place_line(chosen, document) if kind < 0.76 else other_line(chosen, document)


def hear_by_chance(run, chosen):
    """The rest of a session."""
    if chosen.random() < 0.2:
        run.hear(f'limit {chosen.randint(1, 3)}')
    for _ in range(LINES):
        run.hear(line_by_chance(chosen, run.document))
    run.hear('show', *['end'] * len(run.document.levels), 'goto 0', 'show', 'goto 99', 'show', 'discard t')
    return run


@functools.cache
def begun(files, lines, sets_aside=False):
    """A run that has heard these lines, perhaps with fractions set aside."""
    read_members()
    read_whole_things()
    run = (TiledPlay if sets_aside else Play)('begun', FILES if files else ())
    run.hear(*lines)
    return run


def session(seed, sets_aside=False):
    """One session, whose replies the model tells."""
    set_fractions_aside(sets_aside)
    chosen = random.Random(seed)
    lines = BEFORE + chosen.choice(((), (), (), GROUPS, GROUPS, GROUPS, DEEP_GROUPS, FULL_OWNER))
    run = deepcopy(begun(False, lines, sets_aside))
    run.name = f'session {seed}'
    return hear_by_chance(run, chosen)


def session_aside(seed):
    return session(seed, sets_aside=True)


def session_saved(seed):
    """One that saves its map, which may have been infinite, and goes on with the file."""
    run = session(seed, sets_aside=True)
    chosen = random.Random(seed)
    run.name = f'session {seed}, saved'
    run.put('plane.tmj', PLANE.read_bytes())
    run.hear(*(BEFORE[:-1] if seed % 2 else ['open t plane.tmj']))
    for _ in range(2):
        for _ in range(LINES):
            run.hear(line_by_chance(chosen, run.document))
        run.hear(*['end'] * len(run.document.levels), 'save t.tmj', 'discard t', 'open t t.tmj', 'show')
    run.options = [ALL_EDITS, ALL_MAPS]
    return run


def session_over(file, seed):
    """One session that begins with a file."""
    run = deepcopy(begun(True, (f'open t {file}',)))
    run.name = f'session {seed} over {file}'
    return hear_by_chance(run, random.Random(seed))


def test_random_sessions():
    seeds = range(SEED, SEED + RUNS)
    check_together(in_processes(session, seeds, chunk=500), AT_ONCE, [ALL_EDITS])


def test_random_sessions_with_fractions():
    seeds = range(SEED, SEED + ASIDE_RUNS)
    check_together(in_processes(session_aside, seeds, chunk=500), AT_ONCE, [ALL_EDITS, ALL_MAPS])


def test_saved_fractions():
    check_each(in_processes(session_saved, range(SEED, SEED + SAVING_RUNS), chunk=20), fault_of_tiled_run, CORES)


def test_random_sessions_over_files():
    for file, count, chunk in (('deep.tmj', DEEP_RUNS, 100), ('full.tmj', FULL_RUNS, 5)):
        runs = in_processes(functools.partial(session_over, file), range(SEED, SEED + count), chunk=chunk)
        check_together(runs, AT_ONCE, [ALL_EDITS], FILES)
